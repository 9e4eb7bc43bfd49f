#!/usr/bin/env python3
"""Times the elimination of all variables of random systems, by the proved crates and by the reference implementation, on the same cases.

    python3 bench/elimination.py [PATH_TO_CASES_ROWS [VARIABLES..]]

The systems have 10, 20 and 40 variables (or those that are named) and 20 to 200 rows of 1 to 10 terms with factors to 9, around an integer
point, a fifth as many equal rows as variables. Times are processor seconds, so that other work on the machine counts little; those of the
proved crates include the start of the program, reading and writing. The answers must be the same.
"""
import os
import random
import resource
import subprocess
import sys
import time

from affine_text import affine, case_text, exact_text, model, system_text
from reference import TOP


def system(variables, rows):
    pick = random.Random(1000 * variables + rows)
    at = [pick.randint(-20, 20) for _ in range(variables)]
    made = []
    for k in range(rows):
        chosen = pick.sample(range(variables), pick.randint(1, 10))
        terms = [(n, pick.choice([-1, 1]) * pick.randint(1, 9)) for n in chosen]
        equal = k < variables // 5
        bound = sum(f * at[n] for n, f in terms) + (0 if equal else pick.randint(0, 30))
        made.append(affine.row_of(equal, [(model.Cell(n), f) for n, f in terms], bound))
    return model.System(tuple(made), False)


def children():
    used = resource.getrusage(resource.RUSAGE_CHILDREN)
    return used.ru_utime + used.ru_stime


def here(binary, line):
    start = children()
    done = subprocess.run([binary], input=line + '\n', capture_output=True, text=True, check=True)
    return done.stdout.rstrip('\n'), children() - start


def there(given, variables):
    start = time.process_time()
    left, exact = affine.project(affine.tidy(given), variables)
    return exact_text(exact, left), time.process_time() - start


def driver(words):
    """The built driver cases_rows: the one that is named, or the one that `rt run` builds in its folder."""
    return os.path.abspath(words[0]) if words else os.path.join(TOP, 'crates', 'cases_rows', 'out', 'cases_rows')


def main(words):
    binary, total = driver(words[:1]), [0.0, 0.0]
    for count in [int(word) for word in words[1:]] or (10, 20, 40):
        variables = [model.Cell(n) for n in range(count)]
        for rows in (20, 50, 100, 200):
            given = system(count, rows)
            answer, seconds = here(binary, case_text('project', variables, [system_text(given)]))
            other, longer = there(given, variables)
            if answer != other:
                sys.exit(f'{count} variables, {rows} rows: {answer!r} by the crates, {other!r} by the reference')
            total[0] += seconds
            total[1] += longer
            print(f'{count} variables, {rows} rows: {seconds:.3f} s, reference {longer:.3f} s', flush=True)
    print(f'total: {total[0]:.3f} s, reference {total[1]:.3f} s, {total[1] / total[0]:.1f} times as long')


if __name__ == '__main__':
    main(sys.argv[1:])
