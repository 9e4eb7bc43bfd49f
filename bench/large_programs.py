#!/usr/bin/env python3
"""Times the built program on programs whose analysed scalars, CALLs, nests or modules are many, and compares time and memory with the stored figures.

    python3 bench/large_programs.py [--write] [PATH_TO_PIPS [WORD..]]

Each line: the case, the bytes in and out, the processor seconds of one run, its greatest memory in MiB, and of both how many times the stored figure they are; at a second line
of a case with twice as many statements, CALLs or modules also the ratio of the two times. A run is cut off after 120 processor seconds. WORDs choose the cases whose names have one of them.

The stored figures are those that --write has put into bench/large_programs.txt; without that file nothing is compared. The status is 1 where a time or a memory is more than twice the stored one, or a program that once
ended is cut off. Times below a tenth of a second are not compared.
"""
import os
import random
import subprocess
import sys
import tempfile
import time
from dataclasses import dataclass
from typing import Dict, Optional

from measure import binary_of, folded
from scalar_speed import counters, nests
from straight import assignments

LIMIT = 120
STORED = os.path.join(os.path.dirname(os.path.abspath(__file__)), 'large_programs.txt')
# so many times the stored figure is too much; times below the least one say nothing
MOST, LEAST_SECONDS = 2, 0.1


def declared(names, block=''):
    """Declarations of INTEGER variables, of a COMMON block where one is named: as many at a time as a statement has room for."""
    text = ''
    for k in range(0, len(names), 100):
        some = ','.join(names[k:k + 100])
        text += folded('INTEGER ' + some) + (folded(f'COMMON /{block}/ {some}') if block else '')
    return text


def calls(count, symbols):
    """CALLs of a subroutine that shares a COMMON block of half of the caller's symbols."""
    pick = random.Random(count)
    shared = [f'K{k}' for k in range(symbols // 2)]
    own = [f'L{k}' for k in range(symbols - len(shared))]
    text = '      PROGRAM P\n' + declared(shared, 'B') + declared(own)
    text += ''.join(f'      {name}={k}\n' for k, name in enumerate(own[:90]))
    text += ''.join(f'      CALL S({pick.choice(own)})\n' for _ in range(count))
    return text + '      END\n      SUBROUTINE S(I)\n' + declared(shared, 'B') + '      K1=K2+1\n      I=K3\n      END\n'


def shared_common(modules, variables, statements=20, callees=2):
    """Modules with one COMMON block, each of which calls those after it."""
    names = [f'K{k}' for k in range(variables)]
    text = ''
    for number in range(modules):
        pick = random.Random(number)
        text += '      PROGRAM P\n' if number == 0 else f'      SUBROUTINE S{number}\n'
        text += declared(names, 'B')
        lines = [f'CALL S{callee}' for callee in range(number + 1, number + 1 + callees) if callee < modules]
        while len(lines) < statements:
            one, other = pick.sample(names, 2)
            lines.insert(pick.randrange(len(lines) + 1), f'{one}={other}+{pick.randrange(9)}')
        text += ''.join(folded(line) for line in lines) + '      END\n'
    return text


@dataclass
class Figures:
    """What a run takes: processor seconds, and the greatest memory in MiB."""
    seconds: float
    memory: float

    def text(self):
        return f'{self.seconds:.3f} {self.memory:.1f}'

    def too_much(self, stored):
        """Which of them are too much beside the stored ones."""
        slow = self.seconds > MOST * max(stored.seconds, LEAST_SECONDS)
        return ['time'] * slow + ['memory'] * (self.memory > MOST * stored.memory)


def run(binary, text, words):
    """The bytes that it writes, and what it takes; None where it was cut off."""
    with tempfile.TemporaryDirectory() as place:
        path = os.path.join(place, 'p.f')
        with open(path, 'w') as f:
            f.write(text)
        with open(os.path.join(place, 'out'), 'wb') as out:
            child = subprocess.Popen([binary, *words, path], stdout=out, stderr=subprocess.PIPE)
            while True:
                done, status, used = os.wait4(child.pid, os.WNOHANG)
                if done:
                    break
                if seconds_of(child.pid) > LIMIT:
                    child.kill()
                    os.wait4(child.pid, 0)
                    return None
                time.sleep(0.01)
        if status != 0:
            sys.exit(f'status {status}: {child.stderr.read().decode()}')
        return os.path.getsize(os.path.join(place, 'out')), Figures(used.ru_utime + used.ru_stime, used.ru_maxrss / 1024)


def seconds_of(number):
    """The processor seconds of a program that runs."""
    with open(f'/proc/{number}/stat') as f:
        fields = f.read().rsplit(')', 1)[1].split()
    return (int(fields[11]) + int(fields[12])) / os.sysconf('SC_CLK_TCK')


def cases():
    """The name of each case and its programs, each with its name and its words; the second of a case has twice as much as the first."""
    bare, everything = [], ['--show', 'all']
    return [
        ('nests that go on with counters', [(f'{n} nests', nests('M=M+1', counters, n), bare) for n in (50, 100)]),
        ('CALLs with 250 symbols', [(f'{n} CALLs', calls(n, 250), everything) for n in (500, 1000)]),
        ('CALLs with 1,000 symbols', [(f'{n} CALLs', calls(n, 1000), everything) for n in (2000, 4000)]),
        ('modules with one COMMON of 200, in a chain', [(f'{n} modules', shared_common(n, 200, callees=1), bare) for n in (32, 64)]),
        ('modules with one COMMON of 200, which call one another', [(f'{n} modules', shared_common(n, 200), bare) for n in (8, 16, 32, 64)]),
        ('assignments over 200 variables', [(f'{n} assignments', assignments(n, 200), bare) for n in (1000, 2000)]),
        ('assignments over 500 variables', [(f'{n} assignments', assignments(n, 500), bare) for n in (2000, 4000)]),
    ]


def stored() -> Dict[str, Optional[Figures]]:
    """The stored figures by the names of the programs; None of one that was cut off."""
    if not os.path.exists(STORED):
        return {}
    with open(STORED) as f:
        rows = [line.rstrip('\n').rpartition(': ') for line in f]
    return {name: None if said == 'cut off' else Figures(*map(float, said.split())) for name, _, said in rows}


def store(figures: Dict[str, Optional[Figures]]) -> None:
    with open(STORED, 'w') as f:
        f.writelines(f'{name}: {found.text() if found else "cut off"}\n' for name, found in figures.items())


def compared(found: Figures, last: Optional[Figures]) -> str:
    """The two figures beside the stored ones."""
    return f', {found.seconds / last.seconds:.2f} and {found.memory / last.memory:.2f} times as stored' if last and last.seconds else ''


def main(words):
    writes = words[:1] == ['--write']
    words = words[writes:]
    binary, last, now, wrong = binary_of(words[:1]), stored(), {}, []
    for case, programs in cases():
        before = None
        for size, text, flags in programs:
            name = f'{case}: {size}'
            if len(words) > 1 and not any(word in name for word in words[1:]):
                continue
            ran = run(binary, text, flags)
            known = last.get(name)
            now[name] = ran and ran[1]
            if ran is None:
                print(f'{name}: in {len(text)}, cut off after {LIMIT} s', flush=True)
                wrong += [f'{name}: cut off'] * bool(known)
                break
            out, found = ran
            ratio = f', {found.seconds / before:.2f} times the one before' if before else ''
            print(f'{name}: in {len(text)}, out {out}, {found.seconds:.3f} s, {found.memory:.1f} MiB{ratio}{compared(found, known)}', flush=True)
            wrong += [f'{name}: more than {MOST} times the stored {part}' for part in (found.too_much(known) if known else [])]
            before = found.seconds
    if writes:
        store({**last, **now})
    for line in wrong:
        print(line, file=sys.stderr)
    return int(bool(wrong) and not writes)


if __name__ == '__main__':
    sys.exit(main(sys.argv[1:]))
