#!/usr/bin/env python3
"""Times hull, difference and closure of random systems, by the proved crates and by the reference implementation, on the same cases.

    python3 bench/hulls.py [PATH_TO_CASES_ROWS [VARIABLES..]]

The systems have 3 to 8 variables (or those that are named) and 6 to 16 rows of 1 to 3 terms with factors to 3, around an integer point.
Times are processor seconds; those of the proved crates include the start of the program, reading and writing. The answers must be the same.
"""
import random
import sys
import time

from affine_text import affine, case_text, exact_text, model, system_text
from elimination import driver, here


def rows(pick, names, count):
    at = {v: pick.randint(-9, 9) for v in names}
    made = []
    for _ in range(count):
        terms = [(v, pick.choice([-3, -2, -1, -1, 1, 1, 2, 3])) for v in pick.sample(names, pick.randint(1, 3))]
        made.append(affine.row_of(False, terms, sum(f * at[v] for v, f in terms) + pick.randint(0, 9)))
    return made


def cases(variables, count):
    """Each call with one case: its line, and what gives the answer."""
    pick = random.Random(100 * variables + count)
    cells = [model.Cell(n) for n in range(variables)]
    a, b = (model.System(tuple(rows(pick, cells, count // 2)), False) for _ in range(2))
    small = model.System(b.rows[:3], False)
    changed = cells[:variables // 2]
    both = cells[:variables - len(changed)] + [model.Exit(c[1]) for c in changed]
    turn = model.System(tuple(rows(pick, both, count)), False)
    tidy = affine.tidy
    return [
        (case_text('hull', (), [system_text(a), system_text(b)]), lambda: system_text(affine.hull(tidy(a), tidy(b)))),
        (case_text('minus', (), [system_text(a), system_text(small)]), lambda: minus_text(affine.minus(tidy(a), tidy(small)))),
        (case_text('closure', changed, [system_text(turn)]), lambda: system_text(affine.closure(changed, tidy(turn)))),
    ]


def minus_text(answer):
    left, exact = answer
    return exact_text(exact, left) if left is not None else 'nothing'


def main(words):
    binary, total = driver(words[:1]), [0.0, 0.0]
    for variables in [int(word) for word in words[1:]] or (3, 4, 5, 6, 8):
        for count in (6, 8, 12, 16):
            parts = []
            for line, other in cases(variables, count):
                answer, seconds = here(binary, line)
                start = time.process_time()
                wanted = other()
                longer = time.process_time() - start
                if answer != wanted:
                    sys.exit(f'{line}: {answer!r} by the crates, {wanted!r} by the reference')
                total[0] += seconds
                total[1] += longer
                parts.append(f'{line.split()[0]} {seconds:.3f} s, reference {longer:.3f} s')
            print(f'{variables} variables, {count} rows: ' + '; '.join(parts), flush=True)
    print(f'total: {total[0]:.3f} s, reference {total[1]:.3f} s, {total[1] / total[0]:.1f} times as long')


if __name__ == '__main__':
    main(sys.argv[1:])
