#!/usr/bin/env python3
"""Times what grows with the number of CALLs and of modules, where regions are handed on from callees to callers.

    python3 bench/call_speed.py [PATH_TO_PIPS]

16, 32, 64 and 256 modules in a chain, each of which does something to an array of its own, to one in COMMON and to a dummy, which it hands on whole, by its
columns and by its elements; then one module of 64, 256 and 1,024 CALLs. Each line: the case, the bytes in and out, the processor seconds (the least of
three runs, with the start of the program) and the greatest memory in MiB.
"""
import sys

from measure import binary_of, folded, report


def text_of(lines):
    return ''.join(folded(line) for line in lines)


def module(number, modules):
    head = ['PROGRAM P', 'INTEGER X(9,9)', 'N=9'] if number == 0 else [f'SUBROUTINE S{number}(X,N)', 'INTEGER X(N,*)']
    lines = head[:2] + ['COMMON /B/ M,Y(20)', 'INTEGER Y,Z(9)'] + head[2:]
    lines += ['DO I=1,9', 'Z(I)=Y(I)', 'Y(I+1)=M', 'END DO', f'X(1,{number % 9 + 1})=Z(3)']
    if number + 1 < modules:
        lines.append(f'CALL S{number + 1}(X,N)')
    return lines + ['M=M+1', 'END']


def chain(modules):
    return text_of([line for number in range(modules) for line in module(number, modules)])


def calls(count):
    lines = ['PROGRAM P', 'INTEGER A(99,99),B(99)', 'COMMON /B/ M,Y(20)', 'INTEGER Y']
    for k in range(count):
        lines.append([f'CALL S(A(1,{k % 99 + 1}),99)', f'CALL S(B,{k % 9 + 1})', f'CALL T(B(K+{k % 9}),A)'][k % 3])
    lines += ['END', 'SUBROUTINE S(X,N)', 'INTEGER X(N)', 'DO I=1,N', 'X(I)=I', 'END DO', 'END']
    return text_of(lines + ['SUBROUTINE T(M,X)', 'INTEGER X(99,99)', 'COMMON /B/ L,Y(20)', 'INTEGER Y', 'M=X(3,L)', 'Y(L)=M', 'END'])


def main(*words):
    binary = binary_of(words)
    for modules in (16, 32, 64, 256):
        report(f'{modules} modules in a chain', binary, chain(modules), ['--show', 'all'])
    for count in (64, 256, 1024):
        report(f'{count} CALLs of one module', binary, calls(count), ['--show', 'all'])


if __name__ == '__main__':
    main(*sys.argv[1:])
