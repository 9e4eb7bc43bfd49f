#!/usr/bin/env python3
"""Times gfortran, where it looks for parallel loops itself, beside the built program, on texts that both take.

    python3 bench/against_gfortran.py [PATH_TO_PIPS]

Needs gfortran. The texts are the accepted programs of tests/accepted, and the program of 200 parts of reference/generate.py. For each: the least processor seconds of three runs of `gfortran -std=legacy -O2
-ftree-parallelize-loops=4 -S`, which compiles and does not link, and of `pips --show all`. A text that gfortran does not compile is left out, and named. The two programs do not answer the same question; the figures show that
the analyses are no slower than a compilation.
"""
import glob
import os
import subprocess
import sys
import tempfile

import reference
from measure import TOP, binary_of, processor_seconds

GFORTRAN = ('gfortran', '-std=legacy', '-w', '-fno-range-check', '-O2', '-ftree-parallelize-loops=4', '-S')
PARTS = 200


def texts():
    """Names and texts."""
    for path in sorted(glob.glob(os.path.join(TOP, 'tests', 'accepted', '*.f'))):
        with open(path, 'rb') as file:
            yield os.path.basename(path)[:-2], file.read()
    yield f'{PARTS} parts', reference.as_bytes(reference.load('generate').program(PARTS))


def seconds_of(words, place):
    """The least of three runs; None where one fails."""
    best = None
    for _ in range(3):
        start = processor_seconds()
        done = subprocess.run(words, cwd=place, stdout=subprocess.DEVNULL, stderr=subprocess.DEVNULL)
        seconds = processor_seconds() - start
        if done.returncode:
            return None
        best = seconds if best is None else min(best, seconds)
    return best


def main(*others):
    binary = binary_of(others)
    sums, left_out, count = [0.0, 0.0], [], 0
    with tempfile.TemporaryDirectory() as place:
        for name, text in texts():
            with open(os.path.join(place, 'p.f'), 'wb') as file:
                file.write(text)
            compiler = seconds_of([*GFORTRAN, '-o', 'p.s', 'p.f'], place)
            own = seconds_of([binary, '--show', 'all', 'p.f'], place)
            if compiler is None or own is None:
                left_out.append(name)
                continue
            count, sums = count + 1, [sums[0] + compiler, sums[1] + own]
            print(f'{name}: gfortran {compiler:.3f} s, pips {own:.3f} s', flush=True)
    print(f'{count} texts: gfortran {sums[0]:.3f} s, pips {sums[1]:.3f} s' + (f'; left out: {", ".join(left_out)}' if left_out else ''))
    return 0


if __name__ == '__main__':
    sys.exit(main(*sys.argv[1:]))
