#!/usr/bin/env python3
"""Runs the texts that a command writes with their marked loops interleaved, and compares with the run one iteration after the other.

    python3 bench/schedules.py [--profile NAME] [--reductions] [--from SEED] COUNT [SCHEDULES [COMMAND..]]

Makes random programs of reference/programs.py, of the profiles below in turn or of one, until COUNT texts were of use. COMMAND writes the text of each with --show bare: the built program where none is given, and the reference in place of
the word `reference`. The text is read back with its directives by the reference, whose interpreter runs both. It is of use where the program, on one of its inputs, has a run of at most 300 events (1,500 with --reductions) that conforms and ends, and the text
comes to a marked loop there with two accesses or more of variables that its iterations share.
Each text has SCHEDULES parallel runs (200), on its inputs in turn. The iterations of each marked loop go on access by access, in an order drawn anew, each with copies of its own of the DO variable and of what PRIVATE names. Each run has to
end as the program's run does: by no fault, with the same printed items, the same rest of the input, and the same values, but that what marked loops had copies of may have none.
With --reductions COMMAND gets that word too, and those texts are of use whose run comes to a loop with a REDUCTION clause and accumulates there. Each iteration has a copy of each reduction variable, and when all iterations are done their copies are combined in an order drawn anew.
At the end each text with PRIVATE is run, up to 20 times, as if its directives had none, and each with REDUCTION as if it had none: many should differ then, which shows that the comparison finds something.
Prints each difference, and how much was run. Without the built program: python3 bench/schedules.py 500 200 reference
"""
import argparse
import collections
import re
import signal
import subprocess
import sys
import tempfile

import reference
from measure import binary_of

PROFILES = ('parallel', 'loops', 'tiny', 'calls', 'reduce', 'storage')
REDUCING = ('sums', 'reduce', 'tiny', 'parallel')
# three orders without chance come first; the others are drawn, by access, by loop and by a few accesses at once
FIRST, DRAWN = ('backward', 'rounds', 'forward'), ('any', 'bursts', 'mixed')
SECONDS = 20
# events of a run, so that all its schedules take a second; programs that sum are longer
LONGEST, LONGEST_REDUCING = 300, 1500


def limit(seconds, soundness):
    """Raises TooSlow when this process has worked so long from now on; 0 takes that back."""
    def stop(*_):
        raise soundness.TooSlow

    signal.signal(signal.SIGVTALRM, stop)
    signal.setitimer(signal.ITIMER_VIRTUAL, seconds)


def written(command, text):
    if command[0] == 'reference':
        status, out, _ = reference.answer(['--show', 'bare', *command[1:]], text)
        return status, out.decode('latin-1')
    with tempfile.NamedTemporaryFile(suffix='.f') as file:
        file.write(text.encode('latin-1'))
        file.flush()
        done = subprocess.run([*command, '--show', 'bare', file.name], stdout=subprocess.PIPE, stderr=subprocess.PIPE)
    return done.returncode, done.stdout.decode('latin-1')


class Text:
    """A program by its runs that conform and end soon, and, once it is written, the text that was written of it, with its marks."""

    def __init__(self, soundness, text, inputs, longest):
        self.soundness, self.interp = soundness, soundness.interp
        world = self.interp.World(soundness.read_text(text))
        runs = [(given, self.interp.run_program(world, given, soundness.TURNS, steps=soundness.STEPS)) for given in inputs]
        self.runs = [(given, run) for given, run in runs if self.interp.ends(run) and len(run.trace) <= longest]

    def is_of_use(self, shown):
        program, self.marks, self.parts = self.soundness.read_marked(shown)
        self.world = self.interp.World(program)
        self.runs = [(given, run) for given, run in self.runs if self.comes_to_a_loop(given, run)]
        return self.runs

    def comes_to_a_loop(self, given, run):
        found = self.parallel(given, self.marks, self.parts, 0, 'forward')
        if found.outcome != run.outcome:
            return True
        if self.parts:      # without the clause, what accumulates is accesses of a shared variable
            return found.actions != self.parallel(given, self.marks, {}, 0, 'forward').actions
        return max(found.actions, default=0) > 1

    def parallel(self, given, marks, parts, seed, style):
        return self.interp.run_random(self.world, marks, given, self.soundness.TURNS, seed, style, steps=20 * self.soundness.STEPS, reductions=parts)

    def difference(self, marks, parts, k, counts):
        """What the k-th parallel run has that the run of the program has not, or None."""
        given, run = self.runs[k % len(self.runs)]
        turn = k // len(self.runs)
        style = FIRST[turn] if turn < len(FIRST) else DRAWN[turn % len(DRAWN)]
        found = self.parallel(given, marks, parts, k, style)
        counts['runs of marked loops'] += len(found.actions)
        counts['accesses'] += sum(found.actions)
        try:
            self.soundness.Checker.same_end(None, run, found, f'schedule {k} ({style})', marks)
        except self.soundness.Violation as violation:
            return f'input {given[:12]}: {violation}'
        return None


def try_text(made, schedules, say, counts):
    counts['texts'] += 1
    counts['marked loops'] += len(made.marks)
    for k in range(schedules):
        counts['schedules'] += 1
        told = made.difference(made.marks, made.parts, k, counts)
        if told:
            say(told)
            break
    bare = {loop: () for loop in made.marks}
    for name, marks, parts in (('PRIVATE', bare, made.parts), ('REDUCTION', made.marks, {})):
        if (marks, parts) != (made.marks, made.parts):
            counts[f'texts with {name}'] += 1
            counts[f'that differ without {name}'] += any(made.difference(marks, parts, k, collections.Counter()) for k in range(min(schedules, 20)))


def try_program(command, seed, profile, schedules, soundness, programs, counts):
    text, inputs = programs.make(seed, profile)
    counts['programs'] += 1

    def say(what):
        counts['differences'] += 1
        print(f'seed {seed}, profile {profile}: {what}', flush=True)

    try:
        limit(SECONDS, soundness)
        made = Text(soundness, text, inputs, LONGEST_REDUCING if '--reductions' in command else LONGEST)
        status, shown = written(command, text) if made.runs else (1, '')
        wanted = r'REDUCTION\(' if '--reductions' in command else r'^C\$OMP PARALLEL DO'
        if status or not re.search(wanted, shown.replace('\nC$OMP&', ''), re.M) or not made.is_of_use(shown):
            return
    except soundness.TooSlow:
        counts['too slow for the reference'] += 1
        return
    finally:
        limit(0, soundness)
    try_text(made, schedules, say, counts)


def main():
    words = argparse.ArgumentParser()
    words.add_argument('--profile', action='append')
    words.add_argument('--reductions', action='store_true')
    words.add_argument('--from', type=int, default=0, dest='first')
    words.add_argument('count', type=int)
    words.add_argument('schedules', type=int, nargs='?', default=200)
    words.add_argument('command', nargs='*')
    given = words.parse_args()
    command, profiles = given.command or [binary_of([])], given.profile or (REDUCING if given.reductions else PROFILES)
    command += ['--reductions'] if given.reductions else []
    programs, soundness = reference.load('programs'), reference.load('soundness')
    counts, seed = collections.Counter(), given.first
    while counts['texts'] < given.count:
        try_program(command, seed, profiles[seed % len(profiles)], given.schedules, soundness, programs, counts)
        seed += 1
    names = ('programs', 'texts', 'marked loops', 'schedules', 'runs of marked loops', 'accesses', 'differences', 'texts with PRIVATE', 'that differ without PRIVATE', 'texts with REDUCTION', 'that differ without REDUCTION', 'too slow for the reference')
    print(', '.join(f'{counts[name]} {name}' for name in names))
    return counts['differences'] > 0


if __name__ == '__main__':
    sys.exit(main())
