#!/usr/bin/env python3
"""Compares the built program with the reference on random sessions, random uses of a base and random command lines: the exit number, each byte on out and on err, and each byte of the base that is kept.

    python3 bench/session_agreement.py COUNT [PATH_TO_PIPS [JOBS [PART..]]]     # PATH_TO_PIPS `reference`: the reference as a program, to try the script

COUNT sessions of up to 30 commands, half of them with a base, which two or three of them use one after another; and COUNT uses of a base: a program, then the same one with
a module changed, taken away, brought back or in another place, or with modules in another order, each with what `--show`, `--verify`, `--reductions` and `--bounds` give, now and then with a session between that
makes some of the results. Nearly half of the runs find a base of version 1, or one in which each kind has the format number 1, of the program as it is, as it was before, or as a session left it. Modules change as in bench/changed_programs.py. Last COUNT lines of words, most of which are refused: options twice, with values behind `=` or without, `--`, words that are no
UTF-8. Prints how the runs ended. A run that differs is written to the folder for temporary files. PARTs: sessions, bases, words; all of them unless some are named.
"""
import random
import sys
from functools import cache

import reference
from agreement import FLAGS
from changed_programs import Changes, made_program, names_of, random_program
from command_runs import BASE, Step, compare, program_of
from session_programs import KINDS, SHOWS


def as_bytes(text):
    return text.encode('latin-1')


def shown(pick):
    return ['--show', pick.choice(SHOWS)] if pick.random() < .8 else []


def verified(pick):
    return ['--verify'] if pick.random() < .3 else []


def flags(pick):
    return [flag for flag in FLAGS if pick.random() < .4]


def session_steps(number):
    """One session without a base, or a few that use one after another."""
    maker = Changes(number)
    if number % 2 == 0:
        yield Step(shown(maker.pick) + ['--session', 's'], {'s': as_bytes(maker.session(30))})
        return
    count = maker.pick.choice([2, 2, 3])
    for _ in range(count):
        yield Step(shown(maker.pick) + BASE + verified(maker.pick) + ['--session', 's'], {'s': as_bytes(maker.session(30 // count))})


def script_of(pick, names):
    """A session that makes some results, and may end with all of them."""
    lines = [f'{pick.choice(["make", "show"])} {pick.choice(KINDS[4:])} {pick.choice(names)}' for _ in range(pick.randint(0, 3))]
    return ''.join(line + '\n' for line in lines + ['print'] * pick.randrange(2))


def kept_before(stage, text, script=None):
    """The file of a base as it was kept at a stage before, of a text or of a session on it; none where the text is refused."""
    words, files = (['p.f'], {'p.f': text}) if script is None else (['--session', 's'], {'s': f'source {len(text.splitlines())}\n'.encode() + text + script})
    base = reference.whole([*BASE, *words], files, stage)[3].get('b.json')
    return {} if base is None else {'b.json': base}


def base_steps(number):
    """A program, and what becomes of it, with one base, which now and then is as it was kept before."""
    pick = random.Random(number)
    program = random_program(reference.load('programs'), number) if number % 8 == 0 else made_program(number)
    before = as_bytes(program.text())
    for _ in range(pick.choice([2, 3, 3, 4])):
        text = as_bytes(program.text())
        old = {}
        if pick.random() < .45:
            script = as_bytes(script_of(pick, list(names_of(program)))) if pick.random() < .3 else None
            old = kept_before(pick.choice([reference.VERSION_1, reference.FORMATS_1]), before if pick.random() < .7 else text, script)
        yield Step(shown(pick) + BASE + verified(pick) + flags(pick) + ['p.f'], {'p.f': text, **old})
        if pick.random() < .2:
            yield Step(BASE + verified(pick) + ['--session', 's'], {'s': as_bytes(script_of(pick, list(names_of(program)))), **(old if pick.random() < .5 else {})})
        before = text
        program.step()


# what stands on a command line; the last word is no UTF-8
WORDS = ['--show', 'all', 'bare', 'why', 'loud', '--show=all', '--show=bare', '--show=', '--base', '--base=b.json', 'b.json', '--base=-', '-', '--base=', '--verify', '--verify=', '--verify=1', '--reductions', '--reductions', '--reductions=', '--reduction', '--bounds', '--bounds', '--bounds=', '--bound', '--session', '--session=',
         '--session=x', '--generate', '--generate=4', '4', '0', '04', '+4', '200', '201', '4.0', '--generate=', 'p.f', 's', 'nope', '', '--', '-h', '--help', '--version', '-V', '-s', '-b', '-p.f', '---', '--sho', '--base=-b',
         'help', '--show=loud', '--BASE', '--Show', 'all ', 'é', '--generate=200', '--no-verify', '-vs', '--=', '--show all', '\udcff']


@cache
def base_of(text):
    return reference.whole([*BASE, 'p.f'], {'p.f': text})[3]['b.json']


def word_steps(number):
    """Some words, over a text, a script and perhaps a base; standard input is empty."""
    pick = random.Random(f'words {number}')
    words = [pick.choice(WORDS) for _ in range(pick.choice([0, 1, 1, 2, 2, 3, 3, 4, 5, 6]))]
    if pick.random() < .5:
        words.insert(pick.randrange(len(words) + 1), 'p.f')
    text = b'      N=2\n      PRINT *,N\n      END\n'
    files = {'p.f': text, 's': b'source 1\n      END\nprint\n', '-': b''}
    yield Step(words, {**files, 'b.json': base_of(text)} if pick.random() < .4 else files)


PARTS = {'sessions': session_steps, 'bases': base_steps, 'words': word_steps}
NAMES = {'sessions': 'sessions', 'bases': 'uses of a base', 'words': 'command lines'}


def main(count, *others):
    binary, jobs = program_of(others[:2])
    same = [compare(NAMES[part], binary, make, range(int(count)), jobs) for part, make in PARTS.items() if part in (others[2:] or PARTS)]
    return 0 if all(same) else 1


if __name__ == '__main__':
    sys.exit(main(*sys.argv[1:]))
