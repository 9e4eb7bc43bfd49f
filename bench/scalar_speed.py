#!/usr/bin/env python3
"""Times the analyses of analysed scalars, by the command and by the reference implementation, whose answers have to be the same.

    python3 bench/scalar_speed.py [PATH_TO_PIPS [NESTS [MODULES..]]]

First one module of 100 nests (or NESTS) of three loops, 1,000 statements, which begin their counters anew; then a tenth as many nests that go
on with the counters of those before them, so that more and more rows hold; then a quarter, half and all of 100 nests (or NESTS) of three DO WHILEs, which
begin their counters anew; then 16, 32 and 64 modules (or MODULES) in a chain of calls, and as
many of which each calls two. Each line: the case, the bytes in and out, the processor seconds of the command (the least of three, with the start
of the program) and of the reference, the ratio, and the greatest memory in MiB.
"""
import resource
import sys
import tempfile
import time

import reference
from agreement import answer
from measure import binary_of, folded, processor_seconds


def text_of(lines):
    return ''.join(folded(line) for line in lines)


def arrays(k):
    return [f'A(K)=I+{k}*J', f'M=I+{k + 2}*J', f'IF (M.GT.N+{k}) A(1)=M', f'L=L+{k % 7 + 1}', 'A(L)=A(K)+1', f'K1=M-{k + 1}*K']


def counters(k):
    return ['M=M+1', 'L=I+J', 'IF (L.GT.N) L=N', 'K1=K-1', 'M=M+2', 'IF (M.LT.K1) M=K1']


def nest(k, first, body):
    """A statement, and three loops, one in the other, over these statements."""
    return [first, f'DO I=1,{k + 5}', 'DO J=1,I', f'DO K=J,N+{k}'] + body + ['END DO'] * 3


def nests(first, body, count=100):
    """A module of 1,000 statements but for the first and the last; the END DOs are none."""
    return text_of(['PROGRAM P', 'INTEGER A(1000)', 'READ *,N'] + [line for k in range(count) for line in nest(k, first, body(k))] + ['PRINT *,M', 'END'])


def while_nest(k):
    """Three DO WHILEs, one in the other, and what they count."""
    return ['I=1', 'L=0', f'DO WHILE (I.LE.N+{k})', 'J=1', 'DO WHILE (J.LE.I)', 'K=J', f'DO WHILE (K.LT.{k + 9})', f'K=K+{k % 3 + 1}', 'L=L+1', 'END DO', 'J=J+1', 'END DO', 'I=I+1', 'END DO']


def while_nests(count):
    return text_of(['PROGRAM P', 'READ *,N'] + [line for k in range(count) for line in while_nest(k)] + ['PRINT *,L', 'END'])


def module(number, modules, calls):
    title = ['PROGRAM P'] if number == 0 else [f'SUBROUTINE S{number}(N,M)']
    lines = title + ['COMMON /B/ K,L']
    lines += ['DO I=1,9', 'M=M+1', 'K=K+2', 'IF (M.GT.N) L=M', 'END DO', 'J=N+1', 'IF (J.GT.3) THEN', 'K=J', 'ELSE', 'K=3', 'END IF']
    lines += [f'CALL S{callee}(J,M)' for callee in range(number + 1, number + 1 + calls) if callee < modules]
    return lines + ['L=K+M', 'END']


def chain(modules, calls):
    return text_of([line for number in range(modules) for line in module(number, modules, calls)])


def here(binary, text):
    best = None
    with tempfile.TemporaryDirectory() as place:
        for _ in range(3):
            start = processor_seconds()
            given = answer(binary, place, [], text.encode())
            seconds = processor_seconds() - start
            best = seconds if best is None else min(best, seconds)
    return given, best


def there(text):
    start = time.process_time()
    given = reference.answer([], text)
    return given, time.process_time() - start


def compare(name, binary, text):
    given, seconds = here(binary, text)
    wanted, others = there(text)
    memory = resource.getrusage(resource.RUSAGE_CHILDREN).ru_maxrss / 1024
    same = '' if given == wanted else ', DIFFERS'
    print(f'{name}: in {len(text)}, out {len(given[1])}, {seconds:.3f} s, reference {others:.3f} s, {others / seconds:.1f} times, {memory:.1f} MiB{same}', flush=True)


def main(*words):
    binary, count = binary_of(words[:1]), int(words[1]) if len(words) > 1 else 100
    compare(f'{count} nests of three loops', binary, nests('L=0', arrays, count))
    compare(f'{max(1, count // 10)} nests that go on with counters', binary, nests('CONTINUE', counters, max(1, count // 10)))
    for nests_of in sorted({max(1, count // 4), max(1, count // 2), count}):
        compare(f'{nests_of} nests of three DO WHILEs', binary, while_nests(nests_of))
    for calls in [1, 2]:
        for modules in [int(word) for word in words[2:]] or [16, 32, 64]:
            compare(f'{modules} modules, each calls {calls}', binary, chain(modules, calls))


if __name__ == '__main__':
    main(*sys.argv[1:])
