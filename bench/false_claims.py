#!/usr/bin/env python3
"""Looks for false claims in the texts that a command writes of random programs.

    python3 bench/false_claims.py COUNT [COMMAND..]

COUNT programs of each of the profiles small, loops and jumps of reference/programs.py, which have one module each. COMMAND, the built program where none is given, reads each from its standard input. Its text has to be that of the
reference, byte by byte: then the preconditions, transformers and regions in it are those that the reference finds, and its search (reference/soundness.py) looks for a run, on a few inputs, in which one of them is false.

READ, WRITE and IN regions are tried on runs without a fault, preconditions on all. Prints each claim that is false, and how much was tried. A program that takes longer than a minute is given up.
To try the script itself: python3 bench/false_claims.py 3 python3 reference/pips.py --stage marks
"""
import collections
import re
import signal
import subprocess
import sys

import reference
from measure import binary_of

PROFILES = ('small', 'loops', 'jumps')
REGION = re.compile(r'^C> (READ|WRITE|IN) \S+ \{.*\} (EXACT|MAY)(?: WEAK)?$', re.M)


def written(command, text):
    done = subprocess.run(command, input=text.encode('latin-1'), stdout=subprocess.PIPE, stderr=subprocess.PIPE)
    return done.returncode, done.stdout, done.stderr


def try_runs(soundness, text, inputs):
    """Raises Violation where a claim is false in a run with one of these inputs, and TooSlow."""
    program = soundness.read_text(text)
    world = soundness.interp.World(program)
    checker = soundness.Checker(program, soundness.analyse(program), soundness.tracked_cells(program), world)
    for given in inputs:
        run = soundness.interp.run_program(world, given, soundness.TURNS, record=True, steps=soundness.STEPS)
        soundness.COUNTS['runs'] += 1
        checker.preconditions(run)
        if soundness.interp.conforms(run):
            soundness.COUNTS['without a fault'] += 1
            checker.transformers(run)
            checker.regions(run)


def false_claim(soundness, text, inputs):
    """What is false in a run, as a text; None where nothing was found."""
    try:
        soundness.alarm(60)
        try_runs(soundness, text, inputs)
    except soundness.Violation as violation:
        return str(violation)
    finally:
        signal.alarm(0)
    return None


def figures(found, lines, counts):
    yield f'{found["programs"]} programs, {found["refused"]} refused, {found["given up"]} given up; {found["differ"]} texts differ from the reference'
    yield f'{sum(lines.values())} lines of regions: ' + ', '.join(f'{lines[kind]} {kind}' for kind in sorted(lines))
    yield f'{counts["runs"]} runs, {counts["without a fault"]} of them without a fault, {counts["precondition"]} executions; {sum(counts[f"EXACT {kind}"] for kind in ("READ", "WRITE", "IN"))} times an exact region was looked at'
    yield f'{found["false"]} programs with a false claim'


def main(count, *command):
    command = list(command) or [binary_of([])]
    programs, soundness = reference.load('programs'), reference.load('soundness')
    found, lines = collections.Counter(), collections.Counter()
    for seed in range(int(count)):
        for profile in PROFILES:
            text, inputs = programs.make(seed, profile)
            given = written(command, text)
            found['programs'] += 1
            if given != reference.answer(['--show', 'all'], text):
                found['differ'] += 1
                print(f'differs: seed {seed}, profile {profile}', flush=True)
                continue
            if given[0]:
                found['refused'] += 1
                continue
            for kind, exact in REGION.findall(given[1].decode('latin-1')):
                lines[f'{kind} {exact}'] += 1
            try:
                claim = false_claim(soundness, text, inputs)
            except soundness.TooSlow:
                found['given up'] += 1
                continue
            if claim:
                found['false'] += 1
                print(f'false: seed {seed}, profile {profile}: {claim}', flush=True)
    for line in figures(found, lines, soundness.COUNTS):
        print(line)
    return found['differ'] + found['false'] > 0


if __name__ == '__main__':
    sys.exit(main(*sys.argv[1:]))
