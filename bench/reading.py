#!/usr/bin/env python3
"""Times reading and writing of ordinary statements: texts of 256 KiB and 1 MiB with every kind of statement.

    python3 bench/reading.py [PATH_TO_PIPS]

Each line: the case, the bytes in and out, the processor seconds (the least of three) and the greatest memory in MiB.
"""
import random
import sys

from measure import binary_of, folded, report

SIMPLE = [
    'A(I)=A(I-1)+2*I', 'K=MOD(I,3)+MAX(I,J)', 'L=I.LT.J.AND..NOT.L', 'CALL S(A,I+1)', 'PRINT *,I,\'a text\',A(I)', 'READ *,J,A(2)',
    'IF (I.EQ.3) J=4', 'CONTINUE', 'J=-(I+1)*(K-2)/3', 'A(A(1))=00012',
]


def module(pick, name, statements):
    lines = [f'SUBROUTINE {name}(A,N)', 'INTEGER A(N),B(0:9,10)', 'LOGICAL L', 'COMMON /Z/ I,J,K', 'SAVE B']
    for k in range(statements // 8):
        lines += [f'DO {k + 1} I=1,N', 'IF (I.GT.J) THEN', pick.choice(SIMPLE), 'ELSE', pick.choice(SIMPLE), 'END IF', pick.choice(SIMPLE)]
        lines += ['C a comment line of ordinary length, as people write them', f'{k + 1}', pick.choice(SIMPLE)]
    return lines + ['END']


def written(lines):
    """The lines in fixed form: comments and labels stand before what follows them."""
    text, label = [], ''
    for line in lines:
        if line.startswith('C '):
            text.append(line + '\n')
        elif line.isdigit():
            label = line
        else:
            text.append(label.ljust(6) + folded(line)[6:])
            label = ''
    return ''.join(text)


def of_size(size):
    pick = random.Random(size)
    first = '      PROGRAM P\n      END\n      SUBROUTINE S(A,N)\n      INTEGER A(*)\n      END\n'
    texts, left = [first], size - len(first)
    while True:
        text = written(module(pick, f'S{len(texts)}', 800))
        if len(text) > left:
            break
        texts.append(text)
        left -= len(text)
    return ''.join(texts)


def main(words):
    binary = binary_of(words)
    for size in (262144, 524288, 1048576):
        report(f'ordinary statements, {size // 1024} KiB', binary, of_size(size), ('--show', 'bare'))


if __name__ == '__main__':
    main(sys.argv[1:])
