#!/usr/bin/env python3
"""Checks the examples of docs/LANGUAGE.md by the reference implementation, table by table: each refusal by its code, name and keyword, each
text that is to be written instead, each fault by its number, each loop by its obstacle or its REDUCTION clauses, and each reference by its line SAFE or CHECK.

    python3 bench/language.py
"""
import os
import re
import sys

from reference import TOP, answer, load

ACCEPTED = os.path.join(TOP, 'tests', 'accepted')
DIRECTIVE = 'C$OMP PARALLEL DO'


# ---- the examples

def repeated(part):
    """The statements of a part, which may end with ` *N`."""
    found = re.fullmatch(r'(.*) \*(\d+)', part)
    if not found:
        return [part]
    inside, count = found.groups()
    return (inside[1:-1].split('; ') if inside.startswith('(') else [inside]) * int(count)


def line_of(part):
    """A statement begins in column 7, unless it is written with its blanks; `>` begins in column 1."""
    return part[1:] if part.startswith('>') else '      ' + part


def text_of(example):
    """The text in fixed form; `;` separates lines, and what stands in `( )` before ` *N` is one part."""
    parts = re.findall(r'\s*\([A-Z][^()]*\) \*\d+|[^;]+', example.replace('<tab>', '\t'))
    lines = [line for part in parts if part.strip() for line in repeated(part.strip())]
    return ''.join(line_of(line) + '\n' for line in lines)


def written(text, show, *flags):
    """The lines that are written of a text, or None where it is refused."""
    status, out, _ = answer(['--show', show, *flags], text)
    return out.decode('latin-1').splitlines() if status == 0 else None


def refusal(text):
    """The code, the name and the keyword, or nothing where the text is accepted."""
    status, out, err = answer([], text.replace('é', '\xe9'))
    return ' '.join(err.decode('latin-1').split()[3:]) if status == 1 and not out else ''


def fault(text):
    """The number of the fault with which a run without input ends."""
    return tuple(load('interp').run_program(load('read').read(text), [], 5).outcome[:2])


def directives(lines):
    return sum(line.startswith(DIRECTIVE) for line in lines)


# ---- the rows of a table, each with the reason why it is wrong, or None

def check_refusal(code, name, _, example):
    said = refusal(text_of(span(example)))
    return None if said.split()[:2] == [code, name] else f'is answered by {said or "a text"}'


def check_fault(number, name, *others):
    said = fault(text_of(span(others[-1])))
    return None if said == ('Fault', int(number)) else f'ends with {said}'


def check_instead(_, example, wanted, instead):
    said = refusal(text_of(span(example)))
    if said != wanted:
        return f'is answered by {said or "a text"}'
    said = refusal(text_of(span(instead)))
    return f'what is to be written instead is answered by {said}' if said else None


def check_written(given, wanted):
    lines = written(text_of(span(given)), 'bare')
    lines = [line for line in lines if not line.startswith(DIRECTIVE)]
    return None if lines == text_of(span(wanted)).splitlines() else f'is written as {lines}'


def check_loop(_, example, line, instead):
    first, then = written(text_of(span(example)), 'why'), written(text_of(span(instead)), 'why')
    if span(line) not in first:
        return f'has not the line {line}'
    return None if then and directives(then) > directives(first) else 'what is to be changed makes no loop parallel'


def check_obstacle(name, line, example, change):
    with open(os.path.join(ACCEPTED, f'{span(name)}.f'), encoding='ascii') as file:
        stored = file.read().split('\n', 1)[1]
    if stored != text_of(span(example)):
        return f'is not the program of {name}'
    return check_loop(name, example, line, change)


def reduced(cell):
    """What is written of an example with `--reductions`, and whether that has a REDUCTION clause."""
    lines = written(text_of(span(cell)), 'why', '--reductions')
    return lines, lines is not None and any('REDUCTION(' in line for line in lines)


def check_reduced(_, __, example, line):
    lines, _ = reduced(example)
    if lines is None or span(line) not in lines:
        return f'has not the line {line}'
    return None if directives(written(text_of(span(example)), 'why')) < directives(lines) else 'is parallel without the flag'


def check_not_reduced(_, example, helps):
    lines, clause = reduced(example)
    if lines is None or clause:
        return 'has a REDUCTION clause' if clause else 'is refused'
    return None if helps == 'nothing' or reduced(helps)[1] else 'what helps has no REDUCTION clause'


def bounds_lines(cell):
    """The lines on references in an example."""
    lines = written(text_of(span(cell)), 'bare', '--bounds')
    return None if lines is None else [line for line in lines if line.startswith(('C> SAFE ', 'C> CHECK '))]


def check_safe(_, example, line):
    return None if span(line) in (bounds_lines(example) or []) else f'has not the line {line}'


def check_unsafe(_, example, line, helps):
    if span(line) not in (bounds_lines(example) or []):
        return f'has not the line {line}'
    lines = bounds_lines(helps)
    return None if lines and not any(line.startswith('C> CHECK ') for line in lines) else 'what helps has a CHECK line'


CHECKS = {
    ('Code', 'Name', 'Where', 'Example'): check_refusal,
    ('Fault', 'Name', 'What ends the run', 'Everyday forms of it', 'Example'): check_fault,
    ('Construct', 'For example', 'Answer', 'Write instead'): check_instead,
    ('Input', 'Is written as'): check_written,
    ('Operator', 'Assignments', 'Example', 'Line'): check_reduced,
    ('Not recognised', 'For example', 'What helps'): check_not_reduced,
    ('Reason', 'For example', 'Line', 'What helps'): check_loop,
    ('Safe', 'For example', 'Line'): check_safe,
    ('Reason for CHECK', 'For example', 'Line', 'What helps'): check_unsafe,
    ('Program', 'Line', 'Text', 'What to change'): check_obstacle,
}


# ---- the page

def span(cell):
    """The last part of a cell in the type of code, or the cell itself."""
    return (re.findall(r'`([^`]*)`', cell) or [cell])[-1]


def rows(page):
    """Each row of a table that is checked: its check and its cells. An empty cell is that of the row before."""
    check, last = None, ()
    for line in page.splitlines():
        cells = tuple(cell.strip() for cell in line.strip('|').split('|')) if line.startswith('|') else None
        if cells is None or cells in CHECKS:
            check, last = CHECKS.get(cells), ()
        elif check and not set(line) <= set('|-'):
            last = tuple(new or old for new, old in zip(cells, last or cells))
            yield check, last


def main():
    with open(os.path.join(TOP, 'docs', 'LANGUAGE.md'), encoding='utf-8') as file:
        page = file.read()
    checked = [(cells, check(*cells)) for check, cells in rows(page)]
    wrong = [f'{" | ".join(cells)}\n    {why}' for cells, why in checked if why]
    print('\n'.join(wrong + [f'{len(checked)} examples, {len(wrong)} wrong']))
    return bool(wrong)


if __name__ == '__main__':
    sys.exit(main())
