#!/usr/bin/env python3
"""Times programs of 16, 64 and 256 modules, each with an array and a loop: in a chain of CALLs; in a complete order, where each module calls all behind it; and in a chain over one COMMON block of 20 variables.

    python3 bench/many_modules.py [PATH_TO_PIPS [PART..]]        # PARTs: chain, order, common; all of them unless some are named

Each line: the case, the bytes in and out, the processor seconds (the least of three runs) and the greatest memory in MiB. The status is 1 where twice as many modules of the chain take more than 2.4 times as long,
so that four times as many take more than 5.76 times as long.
"""
import random
import sys

from measure import binary_of, folded, line_of, measured

MODULES = (16, 64, 256)
VARIABLES = 20
# what twice as many modules of the chain may take
MOST = 2.4


def titled(number, dummies=''):
    return f'SUBROUTINE S{number}{dummies}' if number else 'PROGRAM P'


def loop(number):
    """A loop over an array of the module, and one over the array X."""
    return ['DO I=1,9', f'Z(I)=X(I)+{number}', 'END DO', 'DO I=2,9', 'X(I)=X(I-1)+Z(I)', 'END DO']


def with_calls(modules, callees):
    """Modules that hand one array on to those that they call."""
    lines = []
    for number in range(modules):
        lines += [titled(number, '(X)'), 'INTEGER X(9),Z(9)', *loop(number), *[f'CALL S{callee}(X)' for callee in callees(number)], 'END']
    return lines


def chain(modules):
    return with_calls(modules, lambda number: range(number + 1, min(number + 2, modules)))


def order(modules):
    return with_calls(modules, lambda number: range(number + 1, modules))


def common(modules):
    """A chain over one block, of which each module changes some variables."""
    names, lines = [f'K{k}' for k in range(VARIABLES - 1)], []
    for number in range(modules):
        pick = random.Random(number)
        changes = [f'{one}={other}+{number % 9}' for one, other in (pick.sample(names, 2) for _ in range(4))]
        calls = [f'CALL S{number + 1}'] if number + 1 < modules else []
        lines += [titled(number), 'COMMON /B/ ' + ','.join(names) + ',X(9)', 'INTEGER X,Z(9)', *changes[:2], *loop(number), *calls, *changes[2:], 'END']
    return lines


PARTS = {'chain': ('in a chain', chain), 'order': ('in a complete order', order), 'common': (f'with one COMMON of {VARIABLES}', common)}


def seconds_of(binary, name, make):
    """The seconds for each number of modules, of which it prints a line each."""
    found = []
    for modules in MODULES:
        text = ''.join(map(folded, make(modules)))
        answer = measured(binary, text, ['--show', 'bare'])
        print(line_of(f'{modules} modules {name}', text, answer), flush=True)
        found.append(answer.seconds)
    return found


def is_linear(seconds):
    return all(more <= less * MOST ** 2 for less, more in zip(seconds, seconds[1:]))


def main(*words):
    binary, good = binary_of(words[:1]), True
    for part, (name, make) in PARTS.items():
        if part in (words[1:] or PARTS):
            seconds = seconds_of(binary, name, make)
            good = good and (part != 'chain' or is_linear(seconds))
    return 0 if good else 1


if __name__ == '__main__':
    sys.exit(main(*sys.argv[1:]))
