#!/usr/bin/env python3
"""Packs the programs of tests/ and examples/ into the stored input and output of crates/cases_command.

    python3 bench/pack.py                    # writes crates/cases_command/stdin and stdout
    python3 bench/pack.py --check            # whether they are what the files give: its status is 1 where they are not
    python3 bench/pack.py --answers [PART..] # writes the wanted bytes by the reference, of all files or of those with a PART in their path

A program NAME.f is a case for each file of wanted bytes beside it: NAME.all, NAME.bare and NAME.why are what `--show all`, `--show bare`
and `--show why` write, NAME.out what is written without words, and NAME.err the line of a refusal, of a run without words. NAME.all_reduced and so on are what is written with `--reductions` too,
NAME.all_bounds with `--bounds`, and NAME.all_reduced_bounds with both.
tests/words/NAME.words is a command line, in which p.f names tests/words/p.f; what it answers is NAME.out or NAME.err. A script
tests/sessions/NAME.script is answered with `--session` by NAME.out. A case is added
by adding its files: for --answers an empty file of wanted bytes will do. The cases come in the order of their paths, and after them those
of tests/random.in and tests/random.out, which bench/random_cases.py makes in the same form.
"""
import os
import sys

TOP = os.path.dirname(os.path.dirname(os.path.abspath(__file__)))
TESTS = os.path.join(TOP, 'tests')
FOLDERS = [os.path.join(TESTS, 'accepted'), os.path.join(TESTS, 'refused'), os.path.join(TESTS, 'words'), os.path.join(TESTS, 'sessions'), os.path.join(TOP, 'examples')]
PROGRAM, SCRIPT, LINE = '.f', '.script', '.words'
WORDS = {'.all': b'--show all p.f', '.bare': b'--show bare p.f', '.why': b'--show why p.f', '.out': b'p.f', '.err': b'p.f'}
FLAGS = {'_reduced': b' --reductions', '_bounds': b' --bounds', '_reduced_bounds': b' --reductions --bounds'}
WORDS.update({end + name: WORDS[end] + flags for name, flags in FLAGS.items() for end in ('.all', '.bare', '.why')})


def content(path):
    with open(path, 'rb') as f:
        return f.read()


def write(path, data):
    with open(path, 'wb') as f:
        f.write(data)


class Case:
    """A command line, the program that it names p.f, and the file of the wanted bytes."""

    def __init__(self, words, program, wanted):
        self.words, self.program, self.wanted = words, content(program), wanted

    def given(self):
        return self.program + b'\n== ' + self.words + b'\n'

    def answer(self):
        wanted = content(self.wanted)
        status = status_of(wanted) if self.wanted.endswith('.err') else 'Done'
        return f'== {status}\n'.encode() + wanted


def status_of(line):
    """The status of a run by its line on standard error."""
    words = line.decode().split()
    if words[:2] == ['pips:', 'line']:
        return f'Refused({words[2].rstrip(":")}, {words[3]})'
    return 'Usage' if words[0] == 'usage:' else 'NoInput'


def cases_of(folder):
    for name in sorted(os.listdir(folder)):
        path = os.path.join(folder, name)
        stem, kind = os.path.splitext(path)
        if kind in (PROGRAM, SCRIPT, LINE):
            wanted = [stem + end for end in WORDS if os.path.exists(stem + end)]
            if not wanted and name != 'p.f':
                sys.exit(f'{path}: there are no wanted bytes beside it')
            for other in wanted:
                if kind == SCRIPT:
                    yield Case(b'--session p.f', path, other)
                elif kind == PROGRAM:
                    yield Case(WORDS[os.path.splitext(other)[1]], path, other)
                else:
                    yield Case(content(path).strip(), os.path.join(folder, 'p.f'), other)


def all_cases():
    return [case for folder in FOLDERS for case in cases_of(folder)]


def packed():
    """The bytes of each stored file."""
    cases = all_cases()
    return {
        'stdin': b''.join(case.given() for case in cases) + content(os.path.join(TESTS, 'random.in')),
        'stdout': b''.join(case.answer() for case in cases) + content(os.path.join(TESTS, 'random.out')),
    }


def stored(name):
    return os.path.join(TOP, 'crates', 'cases_command', name)


def write_answers(parts):
    """The reference stands beside the tests, and no other mode needs it."""
    from reference import run
    for case in all_cases():
        if parts and not any(part in case.wanted for part in parts):
            continue
        status, out, err = run(case.words.decode().split(), {'p.f': case.program})
        if (status != 0) != case.wanted.endswith('.err'):
            sys.exit(f'{case.wanted}: status {status}')
        write(case.wanted, err if status else out)


def main(words):
    if words[:1] == ['--answers']:
        write_answers(words[1:])
        return 0
    files = packed()
    if words == ['--check']:
        stale = [name for name, data in files.items() if content(stored(name)) != data]
        print(''.join(f'crates/cases_command/{name} is not what the files give\n' for name in stale) or 'as the files give\n', end='')
        return int(stale != [])
    for name, data in files.items():
        write(stored(name), data)
    print(f'{len(all_cases())} cases of files; ' + ', '.join(f'{name}: {len(data)} bytes' for name, data in files.items()))
    return 0


if __name__ == '__main__':
    sys.exit(main(sys.argv[1:]))
