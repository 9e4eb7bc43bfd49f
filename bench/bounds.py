#!/usr/bin/env python3
"""Looks for runs in which a reference leaves its array though a SAFE line has it, and counts the references of SAFE lines.

    python3 bench/bounds.py [--gfortran] [--smaller] [--profile NAME] [--from SEED] COUNT [COMMAND..]
    python3 bench/bounds.py --shares COUNT [COMMAND..]

COUNT accepted programs of reference/programs.py, of its profiles in turn or of one. COMMAND, the built program where none is given, writes each with `--show bare --bounds`. Its text has to be that of the reference, byte by byte: then
its lines are those that the reference finds, and its search (reference/soundness.py) runs the program on a few inputs. A reference at which a run ends with the fault of subscripts must not be a safe one.
With --gfortran, which needs gfortran, the text is compiled with -fcheck=bounds, too, and run on the same inputs. Where it stops at a subscript, its statement must have a CHECK line. A run that meets another fault, by the reference's
interpreter, is left out: what gfortran does after that has no meaning. A program that takes longer than a minute is given up.
With --smaller each upper bound in their declarations is one less, so that many runs leave an array; texts that are then refused are passed over.
With --shares the references of SAFE and CHECK lines are counted: in the accepted programs of tests/ and examples/, and in COUNT random ones.

Prints each difference, and how much was tried. To try the script itself: python3 bench/bounds.py 3 python3 reference/pips.py --stage bounds
"""
import argparse
import collections
import glob
import itertools
import os
import re
import signal
import subprocess
import sys
import tempfile

import reference
from measure import TOP, binary_of
from openmp import compiled

WORDS = ('--show', 'bare', '--bounds')
SECONDS = 60
CHECKED = ('-fcheck=bounds',)
COMMENT = ('C', 'c', '*', '!')
DECLARES = re.compile(r' {6}(INTEGER|LOGICAL|DIMENSION|COMMON) ')
UPPER = re.compile(r'(?<=[(,:])([2-9]|[1-9]\d+)(?=[,)])')
STOP = re.compile(r"At line (\d+) of file .*\nFortran runtime error: Index '")


def written(command, text):
    done = subprocess.run([*command, *WORDS], input=text.encode('latin-1'), stdout=subprocess.PIPE, stderr=subprocess.PIPE)
    return done.returncode, done.stdout, done.stderr


# ---- the reference's search

def try_runs(soundness, text, inputs):
    """The runs on these inputs. Raises Violation where one ends at a safe reference, and TooSlow."""
    program = soundness.read_text(text)
    world = soundness.interp.World(program)
    checker = soundness.Checker(program, soundness.analyse(program), soundness.tracked_cells(program), world)
    runs = [soundness.interp.run_program(world, given, soundness.TURNS, steps=soundness.STEPS) for given in inputs]
    soundness.check_bounds(checker, runs)
    return runs


# ---- what gfortran checks

def is_of_text(line):
    """Whether a line of a written text is the first one of a statement."""
    return not line.startswith(COMMENT) and line[5:6] in ('', ' ')


def start_of(lines, at):
    """The first line of the statement that has the line `at`; of an ELSE IF that of its block IF, which has the lines on all its tests."""
    while not is_of_text(lines[at]):
        at -= 1
    depth = 1 if lines[at][6:].startswith('ELSE IF (') else 0
    while depth:
        at -= 1
        statement = lines[at][6:] if is_of_text(lines[at]) else ''
        depth += (statement == 'END IF') - (statement.startswith('IF (') and ends_with_then(lines, at))
    return at


def ends_with_then(lines, at):
    """Whether the statement that begins with the line `at` is a block IF."""
    text = lines[at]
    for line in itertools.takewhile(lambda line: line.startswith('     ') and line[5:6] not in ('', ' '), lines[at + 1:]):
        text += line[6:]
    return text.endswith(') THEN')


def has_check(lines, at):
    """Whether a CHECK line is among the comments before the statement that has the line `at`."""
    before = itertools.takewhile(lambda line: line.startswith(COMMENT), reversed(lines[:start_of(lines, at)]))
    return any(line.startswith('C> CHECK ') for line in before)


def stops_at(binary, given):
    """The number of the line at which a run stops at a subscript, from 0; None where it does not."""
    try:
        done = subprocess.run([binary], input=''.join(f'{n}\n' for n in given).encode(), stdout=subprocess.DEVNULL, stderr=subprocess.PIPE, timeout=SECONDS)
    except subprocess.TimeoutExpired:
        return None
    found = STOP.search(done.stderr.decode('latin-1'))
    return int(found.group(1)) - 1 if found else None


def compare(text, inputs, runs, say, found):
    """The runs of the program that gfortran makes of a written text, beside those of the interpreter."""
    with tempfile.TemporaryDirectory() as place:
        binary, error = compiled(place, 'p', text, CHECKED)
        found['compiled'] += binary is not None
        if binary is None:
            return say(f'not compiled: {error[-300:]}')
        lines = text.split('\n')
        for given, run in zip(inputs, runs):
            if run.outcome[0] == 'Fault' and run.outcome[1] != 3:
                found['runs with another fault'] += 1
                continue
            found['runs of gfortran'] += 1
            at = stops_at(binary, given)
            found['stops of gfortran'] += at is not None
            if at is not None and not has_check(lines, at):
                say(f'gfortran stops at line {at + 1} of the written text, input {given[:12]}: {lines[at]}')


# ---- random programs

def smaller(text):
    """A text whose declarations have each upper bound that is a number from 2 on one less."""
    lines = [UPPER.sub(lambda found: f'{int(found.group(1)) - 1}', line) if DECLARES.match(line) else line for line in text.split('\n')]
    return '\n'.join(lines)


def try_program(command, name, text, inputs, options, found):
    """Whether the program is accepted."""
    given = written(command, text)
    found['programs'] += 1

    def say(what):
        found['wrong'] += 1
        print(f'{name}: {what}', flush=True)

    if given != reference.answer(list(WORDS), text):
        say('its text is not that of the reference')
        return True
    if given[0]:
        found['refused'] += 1
        return False
    soundness = reference.load('soundness')
    try:
        soundness.alarm(SECONDS)
        runs = try_runs(soundness, text, inputs)
    except soundness.Violation as violation:
        say(str(violation))
        return True
    except soundness.TooSlow:
        found['given up'] += 1
        return True
    finally:
        signal.alarm(0)
    if options.gfortran:
        compare(given[1].decode('latin-1'), inputs, runs, say, found)
    return True


def search(command, options):
    programs, counts = reference.load('programs'), reference.load('soundness').COUNTS
    profiles, found, left = options.profile or sorted(programs.PROFILES), collections.Counter(), options.count
    for seed in itertools.count(options.first):
        if not left:
            break
        profile = profiles[seed % len(profiles)]
        text, inputs = programs.make(seed, profile)
        text = smaller(text) if options.smaller else text
        left -= try_program(command, f'seed {seed}, profile {profile}', text, inputs, options, found)
    print(', '.join(f'{found[name]} {name}' for name in ('programs', 'refused', 'given up', 'wrong')))
    print(f'{counts["safe references"]} safe references, {counts["checked references"]} others; {counts["subscript runs"]} runs, {counts["subscript faults"]} of them end at a subscript')
    if options.gfortran:
        print(', '.join(f'{found[name]} {name}' for name in ('compiled', 'runs of gfortran', 'stops of gfortran', 'runs with another fault')))
    return found['wrong'] > 0


# ---- shares

def references_in(line):
    """How many references a line lists: the commas outside parentheses separate them."""
    depth, count = 0, 1
    for letter in line:
        depth += (letter == '(') - (letter == ')')
        count += letter == ',' and depth == 0
    return count


def references_of(text):
    """How many references the SAFE lines and the CHECK lines of a text have."""
    lists = {word: re.findall(f'^C> {word} (.*)$', text, re.M) for word in ('SAFE', 'CHECK')}
    return tuple(sum(map(references_in, lists[word])) for word in ('SAFE', 'CHECK'))


def files_of(*folders):
    for path in sorted(itertools.chain(*(glob.glob(os.path.join(TOP, folder, '*.f')) for folder in folders))):
        with open(path, encoding='latin-1', newline='') as file:
            yield file.read()


def random_texts(count):
    programs = reference.load('programs')
    profiles = sorted(programs.PROFILES)
    return (programs.make(seed, profiles[seed % len(profiles)])[0] for seed in range(count))


def shares(command, count):
    for name, texts in (('tests/accepted', files_of('tests/accepted')), ('examples', files_of('examples')), (f'{count} random programs', random_texts(count))):
        safe, others, accepted = 0, 0, 0
        for text in texts:
            status, out, _ = written(command, text)
            new = references_of(out.decode('latin-1')) if status == 0 else (0, 0)
            accepted, safe, others = accepted + (status == 0), safe + new[0], others + new[1]
        print(f'{name}: {accepted} accepted programs, {safe + others} references, {safe} of them safe ({100 * safe / max(safe + others, 1):.1f} %)', flush=True)
    return False


def main():
    words = argparse.ArgumentParser()
    words.add_argument('--gfortran', action='store_true')
    words.add_argument('--smaller', action='store_true')
    words.add_argument('--shares', action='store_true')
    words.add_argument('--profile', action='append')
    words.add_argument('--from', type=int, default=0, dest='first')
    words.add_argument('count', type=int)
    words.add_argument('command', nargs=argparse.REMAINDER)
    options = words.parse_args()
    command = options.command or [binary_of([])]
    return shares(command, options.count) if options.shares else search(command, options)


if __name__ == '__main__':
    sys.exit(main())
