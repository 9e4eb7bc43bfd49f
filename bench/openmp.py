#!/usr/bin/env python3
"""Compiles the texts that a command writes of random programs by gfortran, and runs their parallel loops with several threads.

    python3 bench/openmp.py [--profile NAME] [--reductions] [--from SEED] COUNT [COMMAND..]

Needs gfortran with OpenMP (libgomp). COUNT programs of reference/programs.py, of its profiles in turn or of one. COMMAND, the built program where none is given, writes each of them with --show bare, why and all. Each text has to be
compiled with -fopenmp and without. Where a run on one of the program's inputs conforms and ends, by the reference interpreter, the text of --show bare has to print what that run prints: without -fopenmp, and with it by 1, 2, 4 and
8 threads. Prints each difference, and how much was compared.
With --reductions COMMAND gets that word too, and COUNT programs with a REDUCTION clause are compared, by --show bare alone; others are passed over. Sums of copies may pass 32 bits on the way: gfortran lets them wrap.
Before the command writes directives: python3 bench/openmp.py 3 python3 reference/pips.py --stage marks
"""
import argparse
import collections
import itertools
import os
import re
import signal
import subprocess
import sys
import tempfile

import reference
from measure import binary_of

PROFILES = ('parallel', 'loops', 'mixed', 'calls', 'common', 'hazard', 'affine', 'shapes', 'saved', 'storage', 'jumphaz', 'tiny', 'sums', 'reduce', 'functions')
SHOWS = ('bare', 'why', 'all')
THREADS = (1, 2, 4, 8)
# constants whose value is too great are errors of compilation, unless they are told apart from programs that never evaluate them
OPTIONS = ('-std=legacy', '-w', '-O0', '-fno-range-check')
SECONDS = 60


def written(command, place, show, text):
    path = os.path.join(place, 'p.f')
    with open(path, 'w', encoding='latin-1') as file:
        file.write(text)
    done = subprocess.run([*command, '--show', show, path], stdout=subprocess.PIPE, stderr=subprocess.PIPE)
    return done.returncode, done.stdout.decode('latin-1')


def compiled(place, name, text, more):
    """The program that gfortran makes of a text with these further options, and what it says where it makes none."""
    source, binary = os.path.join(place, f'{name}.f'), os.path.join(place, name)
    with open(source, 'w', encoding='latin-1') as file:
        file.write(text)
    done = subprocess.run(['gfortran', *OPTIONS, *more, '-o', binary, source], stdout=subprocess.PIPE, stderr=subprocess.PIPE)
    return (binary, '') if done.returncode == 0 else (None, done.stderr.decode('latin-1'))


def words_of(binary, given, threads):
    """What a run prints, word by word; a text where it goes wrong."""
    env = dict(os.environ, OMP_NUM_THREADS=str(threads), OMP_WAIT_POLICY='passive')
    try:
        done = subprocess.run([binary], input=''.join(f'{n}\n' for n in given).encode(), stdout=subprocess.PIPE, stderr=subprocess.PIPE, timeout=SECONDS, env=env)
    except subprocess.TimeoutExpired:
        return f'no end in {SECONDS} seconds'
    return done.stdout.decode('latin-1').split() if done.returncode == 0 else f'status {done.returncode}'


def runs_of(soundness, text, inputs):
    """Inputs, and the words that a run on each prints: of those runs that conform and end. TooSlow is raised."""
    world, found = soundness.interp.World(soundness.read_text(text)), []
    for given in inputs:
        run = soundness.interp.run_program(world, given, soundness.TURNS, steps=soundness.STEPS)
        if soundness.interp.ends(run):
            found.append((given, soundness.printed_words(run.printed)))
    return found


def all_compiled(place, texts, say, counts):
    """The programs of each text, without OpenMP and with it; None where one is not compiled."""
    made = {}
    for show, text in texts.items():
        for openmp in (False, True):
            made[show, openmp], error = compiled(place, f'{show}{int(openmp)}', text, ['-fopenmp'] if openmp else [])
            counts['texts compiled'] += made[show, openmp] is not None
            if made[show, openmp] is None:
                say(f'not compiled: --show {show}{" with -fopenmp" if openmp else ""}: ' + ' / '.join(sorted(set(re.findall('Error: (.*)', error)))))
    return made


def compare(made, runs, say, counts):
    """The first difference of each run, where the program was made."""
    for given, wanted in runs:
        counts['runs of the reference'] += 1
        for openmp, threads in [(False, 1), *((True, n) for n in THREADS)]:
            if made['bare', openmp] is None:
                continue
            counts['runs compared'] += 1
            got = words_of(made['bare', openmp], given, threads)
            if got != wanted:
                say(f'prints something else with {threads} threads, -fopenmp: {openmp}, input {given[:12]}: {str(got)[:200]} for {str(wanted)[:200]}')
                break


def clauses_of(text):
    """How many REDUCTION clauses a text has; one may be cut at the end of a line."""
    return text.replace('\nC$OMP&', '').count('REDUCTION(')


def try_program(command, place, seed, profile, soundness, programs, counts):
    text, inputs = programs.make(seed, profile)
    counts['programs'] += 1
    reduces = '--reductions' in command
    answers = {show: written(command, place, show, text) for show in (SHOWS[:1] if reduces else SHOWS)}
    if any(status for status, _ in answers.values()):
        counts['refused'] += 1
        return
    clauses = clauses_of(answers['bare'][1])
    if reduces and not clauses:
        return
    counts['clauses'] += clauses
    counts['programs with a clause'] += clauses > 0

    def say(what):
        counts['differences'] += 1
        print(f'seed {seed}, profile {profile}: {what}', flush=True)

    directives = len(re.findall(r'^C\$OMP PARALLEL DO', answers['bare'][1], re.M))
    counts['directives'] += directives
    counts['programs with one'] += directives > 0
    made = all_compiled(place, {show: written_text for show, (_, written_text) in answers.items()}, say, counts)
    try:
        soundness.alarm(SECONDS)
        runs = runs_of(soundness, text, inputs)
    except soundness.TooSlow:
        counts['too slow for the reference'] += 1
        return
    finally:
        signal.alarm(0)
    compare(made, runs, say, counts)


def main():
    words = argparse.ArgumentParser()
    words.add_argument('--profile', action='append')
    words.add_argument('--reductions', action='store_true')
    words.add_argument('--from', type=int, default=0, dest='first')
    words.add_argument('count', type=int)
    words.add_argument('command', nargs='*')
    given = words.parse_args()
    command, profiles = given.command or [binary_of([])], given.profile or PROFILES
    command += ['--reductions'] if given.reductions else []
    programs, soundness = reference.load('programs'), reference.load('soundness')
    counts = collections.Counter()
    for seed in itertools.count(given.first):
        if counts['programs with a clause' if given.reductions else 'programs'] == given.count:
            break
        with tempfile.TemporaryDirectory() as place:
            try_program(command, place, seed, profiles[seed % len(profiles)], soundness, programs, counts)
    names = ('programs', 'refused', 'programs with one', 'directives', 'programs with a clause', 'clauses', 'texts compiled', 'runs of the reference', 'runs compared', 'too slow for the reference', 'differences')
    print(', '.join(f'{counts[name]} {name}' for name in names))
    return counts['differences'] > 0


if __name__ == '__main__':
    sys.exit(main())
