#!/usr/bin/env python3
"""Times the checks of symbols and storage: modules of many variables, a quarter as many pairs of EQUIVALENCE, with COMMON and DATA.

    python3 bench/symbols.py [PATH_TO_PIPS]

Each line: the case, the bytes in and out, the processor seconds (the least of three) and the greatest memory in MiB.
"""
import sys

from measure import binary_of, folded, report


def module(symbols, pairs, own):
    """Arrays and scalars in turn; each pair of EQUIVALENCE joins two of its own (`own`), or a neighbour to a chain of all."""
    names = [f'{"IJKLMN"[k % 6]}{k}' for k in range(symbols)]
    lines = ['PROGRAM P']
    for k in range(0, symbols, 50):
        lines.append('INTEGER ' + ','.join(n + ('(10)' if i % 2 == 0 else '') for i, n in enumerate(names[k:k + 50])))
    for k in range(0, symbols // 10, 50):
        lines.append('COMMON /B' + str(k) + '/ ' + ','.join(names[k:k + 50]))
    first = symbols // 10
    for k in range(pairs):
        a = first + 2 * k if own else first + k
        b = a + 1
        one, other = (a, b) if a % 2 == 0 else (b, a)
        lines.append(f'EQUIVALENCE ({names[one]}({k % 9 + 1 if own else 1}),{names[other]})')
    for k in range(symbols - 100, symbols, 2):
        lines.append(f'DATA {names[k]} /10*{k}/')
    return ''.join(folded(line) for line in lines + ['END'])


def main():
    binary = binary_of(sys.argv[1:])
    for symbols in [500, 1000, 2000, 4000]:
        report(f'{symbols} symbols, {symbols // 4} pairs', binary, module(symbols, symbols // 4, True), ['--show', 'bare'])
    for symbols in [500, 1000, 2000, 4000]:
        report(f'{symbols} symbols, {symbols // 4} pairs in a chain', binary, module(symbols, symbols // 4, False), ['--show', 'bare'])


if __name__ == '__main__':
    main()
