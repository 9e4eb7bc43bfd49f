#!/usr/bin/env python3
"""Times reading a program of many modules with CALLs: 16, 32 and 64 modules of 500 statements each, every tenth a CALL of a later one; then 64 and 256 modules of 200, the most that fit into 1 MiB.

    python3 bench/links.py [PATH_TO_PIPS]

Each line: the case, the bytes in and out, the processor seconds (the least of three) and the greatest memory in MiB.
"""
import sys

from measure import binary_of, folded, report

CASES = [(16, 500), (32, 500), (64, 500), (64, 200), (256, 200)]


def module(number, modules, statements):
    """The main program, or the subroutine of a number, which calls those behind it."""
    title = ['PROGRAM P'] if number == 0 else [f'SUBROUTINE S{number}(I,J,K)']
    lines = title + ['INTEGER K(10)', 'COMMON /B/ L,M,N']
    for k in range(statements):
        callee = number + 1 + (7 * k) % modules
        if k % 10 == 0 and callee < modules:
            lines.append(f'CALL S{callee}(I+{k},K(2),K)')
        else:
            lines.append(f'K({k % 10 + 1})=I+{k}*J')
    return lines + ['END']


def main():
    binary = binary_of(sys.argv[1:])
    for modules, statements in CASES:
        text = ''.join(folded(line) for number in range(modules) for line in module(number, modules, statements))
        report(f'{modules} modules of {statements} statements', binary, text, ['--show', 'bare'])


if __name__ == '__main__':
    main()
