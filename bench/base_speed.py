#!/usr/bin/env python3
"""Times bases and sessions of the built program.

    python3 bench/base_speed.py [PATH_TO_PIPS [PART..]]        # PARTs: size, change, commands; all of them unless some are named

size: bases up to the limit of 16 MiB, of modules with 4,000 assignments each: made by a run on the program, then read and written again by an empty session. Linear, at most 5 s and 1 GiB is wanted.
change: 64 modules in a chain of CALLs, each with nests of loops, two in each module, then six, then ten; one module is changed, and the program is analysed again with the base of the first run, and without: the least of three runs each. A fifth of the time is wanted.
commands: up to 1,000 commands on 64 modules, which put other texts in place of modules and make results; time linear in what is made is wanted.
All times are processor seconds of a run; memory is the greatest of that run. The status is 1 where something is not as wanted.
"""
import os
import subprocess
import sys
import tempfile
from dataclasses import dataclass

from measure import binary_of, folded
from region_speed import nest

LIMIT = 16_777_216
ASSIGNMENTS = 4_000
MODULES = 64
NESTS = (2, 6, 10)


@dataclass
class Run:
    out: bytes
    seconds: float
    mib: float


def content(path):
    with open(path, 'rb') as file:
        return file.read()


def timed(binary, place, words):
    """A run in a folder."""
    out, err = os.path.join(place, '.out'), os.path.join(place, '.err')
    with open(out, 'wb') as to_out, open(err, 'wb') as to_err:
        begun = subprocess.Popen([binary, *words], cwd=place, stdin=subprocess.DEVNULL, stdout=to_out, stderr=to_err)
        _, status, used = os.wait4(begun.pid, 0)
        begun.returncode = os.waitstatus_to_exitcode(status)
    if begun.returncode:
        sys.exit(f'{" ".join(words)}: status {begun.returncode}: {content(err).decode("latin-1")}')
    return Run(content(out), used.ru_utime + used.ru_stime, used.ru_maxrss / 1024)


def put(place, **files):
    for name, text in files.items():
        with open(os.path.join(place, name), 'w') as file:
            file.write(text)


def text_of(statements):
    return ''.join(map(folded, statements))


# ---- size

def assignments(modules):
    """A main program and subroutines of assignments that it does not call."""
    body = text_of(['I=1', 'J=I'] * (ASSIGNMENTS // 2))
    return ''.join(folded(f'SUBROUTINE S{k}' if k else 'PROGRAM P') + body + folded('END') for k in range(modules))


def row_of_size(binary, modules):
    """Prints a row. Returns the bytes of the base, and the seconds and MiB of the session that reads and writes it."""
    with tempfile.TemporaryDirectory() as place:
        put(place, p=assignments(modules), s='')
        fresh = timed(binary, place, ['--show', 'bare', 'p'])
        kept = timed(binary, place, ['--show', 'bare', '--base', 'b', 'p'])
        base = content(os.path.join(place, 'b'))
        again = timed(binary, place, ['--base', 'b', '--session', 's'])
        if content(os.path.join(place, 'b')) != base:
            sys.exit('an empty session has changed the base')
        print(f'{modules} modules, base of {len(base):,} bytes: fresh run {fresh.seconds:.2f} s, kept as well {kept.seconds:.2f} s; read and written {again.seconds:.2f} s, {again.mib:.0f} MiB', flush=True)
        return len(base), again.seconds, again.mib


def size(binary):
    one, _, _ = row_of_size(binary, 1)
    two, _, _ = row_of_size(binary, 2)
    most = 1 + (LIMIT - one) // (two - one)
    rows = [row_of_size(binary, count) for count in (most // 8, most // 4, most // 2, most)]
    (half, half_seconds, _), (whole, seconds, mib) = rows[-2:]
    return whole > LIMIT * 9 // 10 and seconds <= 5 and mib <= 1024 and seconds / whole <= 1.5 * half_seconds / half


# ---- one module changed

def chained(number, more=(), last=(), name='S', constant='5', nests=NESTS[0]):
    """A module of the chain, of so many nests of loops, which may have more statements, the first or the last ones, another name of a local or another constant."""
    head = ['PROGRAM M0', 'INTEGER X(99)'] if number == 0 else [f'SUBROUTINE M{number}(X,N)', 'INTEGER X(99)']
    head += [f'INTEGER A(999,999),B(999,999),C(999),D(999),E(999),{name}']
    body = ['N=' + constant] * (number == 0) + [line if line[:2] != 'S=' else name + line[1:] for k in range(1, nests + 1) for line in nest(k)]
    call = [f'CALL M{number + 1}(X,N)'] if number < MODULES - 1 else []
    return text_of(head) + ''.join(more) + text_of(body + [f'X({number + 1})={constant}'] + call + [*last, 'END'])


def program(nests=NESTS[0], first=None, **changes):
    """The 64 modules, with the changes of that in the middle, or of the first by `first`."""
    return [chained(k, nests=nests, **(changes if k == MODULES // 2 else first or {} if k == 0 else {})) for k in range(MODULES)]


CHANGES = {
    'nothing': {},
    'a comment': {'more': ['C another comment\n']},
    'a local has another name': {'name': 'S9'},
    'a constant that is written to an element': {'constant': '6'},
    'a statement more, behind the CALL': {'last': ['C(9)=1']},
    'a statement more, in front of the CALL': {'more': [folded('C(9)=1')]},
    'the constant that all modules are handed': {'first': {'constant': '6'}},
}


def least(runs):
    return min(runs, key=lambda run: run.seconds)


def over_base(binary, place, base):
    """A run with a base as it is."""
    with open(os.path.join(place, 'b'), 'wb') as file:
        file.write(base)
    return timed(binary, place, ['--base', 'b', 'p'])


def changes_of(binary, nests):
    good = True
    with tempfile.TemporaryDirectory() as place:
        put(place, p=''.join(program(nests)))
        fresh = timed(binary, place, ['p'])
        first = timed(binary, place, ['--base', 'b', 'p'])
        base = content(os.path.join(place, 'b'))
        print(f'{MODULES} modules of {nests} nests, base of {len(base):,} bytes: fresh run {fresh.seconds:.2f} s, kept as well {first.seconds:.2f} s, {first.mib:.0f} MiB', flush=True)
        for what, changed in CHANGES.items():
            put(place, p=''.join(program(nests, **changed)))
            runs = [(timed(binary, place, ['p']), over_base(binary, place, base)) for _ in range(3)]
            if any(again.out != fresh.out for fresh, again in runs):
                sys.exit(f'{what}: with the base something else is written')
            fresh, again = (least(some) for some in zip(*runs))
            print(f'changed: {what}: fresh {fresh.seconds:.2f} s, with the base {again.seconds:.2f} s, {again.seconds / fresh.seconds:.2f} of it, {again.mib:.0f} MiB', flush=True)
            good = good and (again.seconds <= fresh.seconds / 5 or 'handed' in what)
    return good


def change(binary):
    return all([changes_of(binary, nests) for nests in NESTS])


# ---- many commands

def source(text):
    return f'source {text.count(chr(10))}\n' + text


def script(commands):
    """All modules, and then so many commands: a module in another version, in turn, and what is asked for of it and of another one."""
    versions = [{}, {'more': ['C another comment\n']}, {'constant': '6'}, {'name': 'S9'}]
    text = source(''.join(program())) + 'print\n'
    for number in range(commands // 2):
        at = 1 + number * 7 % (MODULES - 1)
        text += source(chained(at, **versions[(number // (MODULES - 1) + 1) % len(versions)])) + f'make {["MARKS", "PRINTED", "OUT_REGIONS"][number % 3]} M{at * 5 % MODULES}\n'
    return text


def commands(binary):
    rows = []
    with tempfile.TemporaryDirectory() as place:
        for count in (0, 250, 500, 1000):
            put(place, s=script(count))
            run = timed(binary, place, ['--session', 's'])
            made = run.out.count(b'\nmade ')
            rows.append((made, run.seconds))
            print(f'{count} commands: {made} results made, {run.seconds:.2f} s, {run.mib:.0f} MiB', flush=True)
    (none, start), (half, half_seconds), (whole, seconds) = rows[0], rows[-2], rows[-1]
    return (seconds - start) / (whole - none) <= 1.5 * (half_seconds - start) / (half - none)


def main(*words):
    binary, good = binary_of(words[:1]), True
    for part in (size, change, commands):
        if not words[1:] or part.__name__ in words[1:]:
            good = part(binary) and good
    return 0 if good else 1


if __name__ == '__main__':
    sys.exit(main(*sys.argv[1:]))
