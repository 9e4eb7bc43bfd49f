#!/usr/bin/env python3
"""Times the built program on straight programs of 64 KiB, 256 KiB and 1 MiB, and on 4,096 assignments over 20 variables.

    python3 bench/straight.py [PATH_TO_PIPS]

Each line: the case, the bytes in and out, the processor seconds (the least of three) and the greatest memory in MiB. A program has at most 4,096
statements, so that the larger ones have longer statements.
"""
import random
import sys

from measure import binary_of, folded, report


def of_size(size):
    """Up to 4,000 assignments and PRINTs over four variables, up to a size in bytes."""
    pick = random.Random(size)
    names = ['INDEX', 'KOUNT', 'LENGTH', 'NUMBER']
    text = '      PROGRAM P\n'
    for left in range(min(4000, size // 40), 0, -1):
        room = (size - 10 - len(text)) // left - 20
        terms = [f'{pick.randrange(1, 9)}*{pick.choice(names)}' for _ in range(max(1, room * 60 // 66 // 9))]
        text += folded(pick.choice(names) + '=' + '+'.join(terms) if pick.randrange(2) else 'PRINT *,' + ','.join(terms))
    return text + '      END\n'


def assignments(count, variables):
    """Assignments over many variables, each of another one."""
    pick = random.Random(count)
    names = [f'I{k}' for k in range(variables)]
    lines = [f'      {name}={k}\n' for k, name in enumerate(names)]
    while len(lines) < count:
        a, b = pick.sample(names, 2)
        lines.append(f'      {a}={b}+{pick.randrange(100)}\n')
    return '      PROGRAM P\n' + ''.join(lines) + '      END\n'


def main(words):
    binary = binary_of(words)
    for size in (65536, 262144, 1048576):
        report(f'straight {size // 1024} KiB', binary, of_size(size))
    for count in (1024, 2048, 4096):
        report(f'{count} assignments, 20 variables', binary, assignments(count, 20))


if __name__ == '__main__':
    main(sys.argv[1:])
