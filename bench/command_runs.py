"""Chains of runs of the command in one folder, by the built program and by the reference: exit number, bytes on out, bytes on err, and the files that are held afterwards.

The program is named by its path; the name `reference` is the reference itself, run as a program, by which a script can be tried before there is another.
"""
import os
import resource
import subprocess
import sys
import tempfile
import time
from collections import Counter
from collections.abc import Callable
from concurrent.futures import ProcessPoolExecutor
from dataclasses import dataclass, field
from functools import partial

import reference
from measure import binary_of

# the exit numbers that the command has
STATUSES = {0: 'Done', 1: 'Refused', 2: 'Usage', 3: 'NoInput', 4: 'TooLong', 5: 'ReadFault', 6: 'WriteFault', 7: 'BadBase', 8: 'StaleBase', 9: 'BaseFault', 10: 'Memory'}
# the words of a run with a base, by the name of its file here
BASE = ['--base', 'b.json']
# the processor seconds that a run may take, and the seconds by the clock, which other work on the machine lengthens
SECONDS, BY_CLOCK = 120, 1_800
# after how many chains it is told how far a comparison is
EACH = 100


@dataclass
class Step:
    """The words of a run, and the files that are put into the folder before it."""
    words: list
    files: dict
    # whether nothing says what is written with these files; it is asked where answers differ
    is_open: Callable = lambda files: False


@dataclass
class Answer:
    status: int
    out: bytes
    err: bytes
    files: dict

    def differs_in(self, other):
        """The names of the parts that differ."""
        return [name for name in ('status', 'out', 'err', 'files') if getattr(self, name) != getattr(other, name)]

    def name(self):
        """The status with its code, if it has one."""
        if self.status not in STATUSES:
            return f'no status: {self.status}'
        words = self.err.decode('latin-1').split()
        code = {1: words[3:4], 7: words[3:4]}.get(self.status, [])
        return ' '.join([STATUSES[self.status], *code])


@dataclass
class Report:
    """What a chain gave: how its runs ended, the folder in which a run lies whose answers differ or for which the reference has none, and how many differ where nothing says what is written."""
    ended: Counter = field(default_factory=Counter)
    differing: str = ''
    no_answer: str = ''
    open: int = 0


def command_of(binary):
    if binary == 'reference':
        return [sys.executable, os.path.join(reference.FOLDER, 'pips.py'), '--stage', reference.STAGE]
    return [binary]


def content(path):
    with open(path, 'rb') as file:
        return file.read()


def given(binary, words, files):
    """What the program gives in a folder with these files."""
    with tempfile.TemporaryDirectory() as place:
        for name, data in files.items():
            with open(os.path.join(place, name), 'wb') as file:
                file.write(data)
        begun = subprocess.Popen([*command_of(binary), *words], cwd=place, stdin=subprocess.DEVNULL, stdout=subprocess.PIPE, stderr=subprocess.PIPE)
        resource.prlimit(begun.pid, resource.RLIMIT_CPU, (SECONDS, SECONDS))        # from here: a function that runs in the child before it would make each start dear
        try:
            out, err = begun.communicate(timeout=BY_CLOCK)
        except subprocess.TimeoutExpired:
            begun.kill()
            begun.communicate()
            return Answer(-1, b'', b'no end\n', files)
        return Answer(begun.returncode, out, err, {name: content(os.path.join(place, name)) for name in os.listdir(place)})


def store(folder, step, files, wanted, other):
    """Writes a run whose answers differ: its words, its files, and both answers."""
    os.makedirs(folder, exist_ok=True)
    parts = {'words': os.fsencode('\n'.join(step.words)), 'wanted.out': wanted.out, 'wanted.err': wanted.err, 'other.out': other.out, 'other.err': other.err}
    parts.update({name: data for name, data in files.items()})
    for said, answer in (('wanted', wanted), ('other', other)):
        parts.update({f'{said}-{name}': data for name, data in answer.files.items() if files.get(name) != data})
    for name, data in parts.items():
        with open(os.path.join(folder, name), 'wb') as file:
            file.write(data)
    return folder


def folder_of(name, number):
    return os.path.join(tempfile.gettempdir(), f'differs-{name}-{number}')


def follow(binary, name, steps):
    """Goes along a chain. The files that the reference holds after a run are those before the next; the chain ends at the first difference."""
    report, files = Report(), {}
    for number, step in enumerate(steps):
        files = {**files, **step.files}
        try:
            wanted = Answer(*reference.whole(step.words, files))
        except Exception as fault:      # the reference has no answer for some results that nobody would make
            report.ended[f'the reference: {type(fault).__name__}'] += 1
            other = given(binary, step.words, files)
            report.no_answer = f'{store(folder_of(name, number), step, files, other, other)}: {type(fault).__name__}, and {other.name()}'
            if other.status not in STATUSES:
                report.differing = report.no_answer
            break
        other = given(binary, step.words, files)
        report.ended[wanted.name()] += 1
        parts = wanted.differs_in(other)
        if parts and other.status == wanted.status and step.is_open(files):
            report.open += 1
            break
        if parts:
            report.differing = f'{store(folder_of(name, number), step, files, wanted, other)}: {" ".join(parts)}; {" ".join(step.words)}: {wanted.name()}, and {other.name()}'
            break
        files = wanted.files
    return report


@dataclass
class Tally:
    """How the runs of many chains ended."""
    count: int = 0
    differing: int = 0
    no_answer: int = 0
    open: int = 0
    ended: Counter = field(default_factory=Counter)

    def add(self, report):
        self.count += 1
        self.ended.update(report.ended)
        self.no_answer += bool(report.no_answer)
        self.open += report.open
        self.differing += bool(report.differing)

    def line(self, what):
        rest = f', {self.no_answer} without an answer of the reference' if self.no_answer else ''
        rest += f', {self.open} differ where nothing says what is written' if self.open else ''
        return f'{self.count} {what}, {sum(self.ended.values())} runs, {self.differing} differ{rest}; ' + ', '.join(f'{name}: {self.ended[name]}' for name in sorted(self.ended))


def compare(what, binary, make, numbers, jobs=1):
    """Follows chains, each made from one of the numbers, and tells what differs; now and then, on stderr, how far it is. Returns whether all are the same."""
    tally = Tally()
    with ProcessPoolExecutor(jobs) as pool:
        for report in pool.map(partial(follow_one, binary, make), numbers, chunksize=4):
            tally.add(report)
            if report.differing or report.no_answer:
                print('differs: ' + report.differing if report.differing else 'no answer of the reference: ' + report.no_answer, flush=True)
            if tally.count % EACH == 0:
                print(f'{time.strftime("%H:%M:%S")} so far, from {numbers[0]}: ' + tally.line(what), file=sys.stderr, flush=True)
    print(tally.line(what), flush=True)
    return tally.differing == 0


def follow_one(binary, make, number):
    return follow(binary, f'{make.__name__}-{number}', make(number))


def program_of(words):
    """The program and the number of jobs that words name."""
    binary = 'reference' if words and words[0] == 'reference' else binary_of(words[:1])
    if binary != 'reference' and not os.access(binary, os.X_OK):
        sys.exit(f'{binary} is no program: build it with ./pips, or name one')
    return binary, int(words[1]) if len(words) > 1 else 1
