#!/usr/bin/env python3
"""Writes the three programs of bench/profile.sh into a folder.

    python3 bench/profile_programs.py FOLDER

assignments.f: 300 assignments over 200 variables, each of another one. nests.f: 100 nests of three loops that go on with the counters of those
before them. calls.f: 300 CALLs of a subroutine that shares a COMMON block of 75 variables, in a module of 150 symbols.
"""
import os
import random
import sys

from measure import folded
from scalar_speed import counters, nests
from straight import assignments


def blocks(names):
    """The declarations of variables in a COMMON block."""
    return folded('INTEGER ' + ','.join(names)) + folded('COMMON /B/ ' + ','.join(names))


def calls(count, symbols):
    pick = random.Random(count)
    shared = [f'K{k}' for k in range(symbols // 2)]
    own = [f'L{k}' for k in range(symbols - len(shared))]
    text = '      PROGRAM P\n' + blocks(shared) + folded('INTEGER ' + ','.join(own))
    text += ''.join(f'      {name}={k}\n' for k, name in enumerate(own))
    text += ''.join(f'      CALL S({pick.choice(own)})\n' for _ in range(count))
    return text + '      END\n      SUBROUTINE S(I)\n' + blocks(shared) + '      K1=K2+1\n      I=K3\n      END\n'


def main(folder):
    for name, text in [('assignments', assignments(300, 200)), ('nests', nests('M=M+1', counters, 100)), ('calls', calls(300, 150))]:
        with open(os.path.join(folder, name + '.f'), 'w') as f:
            f.write(text)


if __name__ == '__main__':
    main(sys.argv[1])
