#!/usr/bin/env python3
"""Times array regions, with all that they stand on, by the command and by the reference implementation, whose answers have to be the same.

    python3 bench/region_speed.py [PATH_TO_PIPS]

One module of 25, 50 and 100 nests of three loops, one after another, each of ten statements over five arrays: 250, 500 and 1,000 statements. Each line as in `scalar_speed.py`.
"""
import sys

from measure import binary_of
from scalar_speed import compare, text_of


def body(k):
    return [f'A(I,J)=B(J,I+{k})', f'C(K+{k})=C(K)+A(I,J)', f'IF (J.LT.{k + 3}) D(I+J)=K', f'E(2*I+{k})=C(J)', 'B(J,I)=E(I)+D(K)', f'C(I)=A(J,I+{k})']


def nest(k):
    return [f'S={k}', f'DO I=1,{k + 5}', 'DO J=1,I', f'DO K=J,N+{k}'] + body(k) + ['END DO'] * 3


def nests(count):
    head = ['PROGRAM P', 'INTEGER A(999,999),B(999,999),C(999),D(999),E(999),S', 'READ *,N']
    return text_of(head + [line for k in range(count) for line in nest(k)] + ['PRINT *,S', 'END'])


def main(*words):
    for count in (25, 50, 100):
        compare(f'{count} nests over five arrays', binary_of(words), nests(count))


if __name__ == '__main__':
    main(*sys.argv[1:])
