#!/usr/bin/env python3
"""Makes the programs that bench/pack.py appends: tests/random.in, and tests/random.out by the reference.

    python3 bench/random_cases.py [COUNT]

COUNT random programs of every form, 200 where it is not given, and 40 with functions and DO WHILE; then with `--show all` the programs of region_programs.py, in_programs.py and out_programs.py that are
accepted, those by hand and random ones, as many of each as REGIONS says. The lines that their scripts want must be among those written, or it stops. Last come REDUCED programs of the reference's random ones, with
`--show why --reductions`, half of which have a REDUCTION clause at least, and BOUNDED with `--show bare --bounds`, which have a SAFE line and a CHECK line each.
"""
import os
import sys
from collections import Counter

from cases_programs import text_of
from in_programs import in_programs
from out_programs import out_programs
from pack import TESTS, status_of, write
from programs import random_programs
from reference import answer, load
from region_answers import in_lines, out_lines, result_lines
from region_programs import region_programs

# programs of array regions of each kind
REGIONS = 150
FUNCTIONS = 40
REDUCED = 40
BOUNDED = 40


def code_of(status, err):
    return int(err.split()[3]) if status == 1 else 0


def shown(codes):
    return ', '.join(f'{code}: {codes[code]}' for code in sorted(codes) if code)


def lines_of(answer, text):
    """What the reference says of a text; None where it refuses it."""
    try:
        return list(answer(text))
    except load('model').Refused:
        return None


def of_regions():
    """Accepted programs of array regions."""
    for programs, answer in ((region_programs, result_lines), (in_programs, in_lines), (out_programs, out_lines)):
        left = REGIONS
        for statements, want in programs(range(1_000)):
            text = text_of(statements)
            lines = lines_of(answer, text)
            if lines is None:
                continue
            for part in want:
                if part not in lines:
                    sys.exit(f'{part} is not among {lines} of\n{text}')
            yield '--show all', text
            left -= 1
            if not left:
                break


def of_reductions():
    """Short programs that sum: as many with a REDUCTION clause as without."""
    words, left = '--show why --reductions', {True: REDUCED // 2, False: REDUCED // 2}
    for seed in range(1_000):
        program = load('programs').make(seed, 'sums' if seed % 4 else 'reduce')[0]
        if len(program) < 2_500 and any(left.values()):
            status, out, _ = answer(words.split(), program)
            has_clause = b'REDUCTION(' in out
            if status == 0 and left[has_clause]:
                left[has_clause] -= 1
                yield words, program


def of_bounds():
    """Short programs of every profile, with references of both kinds."""
    words, profiles, left = '--show bare --bounds', sorted(load('programs').PROFILES), BOUNDED
    for seed in range(1_000):
        program = load('programs').make(seed, profiles[seed % len(profiles)])[0]
        if len(program) < 2_000 and left:
            status, out, _ = answer(words.split(), program)
            if status == 0 and b'C> SAFE ' in out and b'C> CHECK ' in out:
                left -= 1
                yield words, program


def main(count=200):
    sys.setrecursionlimit(1_000_000)
    given, wanted, codes = [], [], Counter()
    for words, program in [*random_programs(int(count)), *random_programs(FUNCTIONS, 2, True), *of_regions(), *of_reductions(), *of_bounds()]:
        status, out, err = answer(words.split(), program)
        given.append(f'{program}\n== {words} p.f\n'.encode('latin-1'))
        wanted.append(f'== {status_of(err) if status else "Done"}\n'.encode() + out + err)
        codes[code_of(status, err)] += 1
    write(os.path.join(TESTS, 'random.in'), b''.join(given))
    write(os.path.join(TESTS, 'random.out'), b''.join(wanted))
    print(f'{len(given)} programs, {codes[0]} of them accepted; refused by code: {shown(codes)}')


if __name__ == '__main__':
    main(*sys.argv[1:])
