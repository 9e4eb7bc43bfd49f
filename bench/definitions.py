#!/usr/bin/env python3
"""The numbers of lines in docs/DEFINITIONS.md: whether they are right, and whether its parts have each definition that the contract of `run` cites.

    python3 bench/definitions.py             prints what is wrong; its status is 1 where something is
    python3 bench/definitions.py --write     also writes the numbers
"""
import os
import re
import sys

TOP = os.path.dirname(os.path.dirname(os.path.abspath(__file__)))
PAGE = os.path.join(TOP, 'docs', 'DEFINITIONS.md')
NAME = r'`\w+(?:/\w+)*`'
ROW = re.compile(rf'\| (`(\w+)`: ({NAME}(?:, {NAME})*)) \| [\d,]+ \|')


def path(crate, name):
    return os.path.join(TOP, 'crates', crate, 'specs', f'{name}.antt')


def text(crate, name):
    with open(path(crate, name), encoding='utf-8') as file:
        return file.read()


def lines(files):
    return sum(len(text(*it).splitlines()) for it in files)


def stated_in(crate, parts):
    """The definition file that a path of a contract means: a crate may hand on crates below it, and the last one in the path has the file."""
    while parts and os.path.isdir(os.path.join(TOP, 'crates', parts[0], 'specs')):
        crate, parts = parts[0], parts[1:]
    names = ['/'.join(parts[:count]) for count in range(len(parts), 0, -1)]
    return [(crate, name) for name in names if os.path.exists(path(crate, name))][:1]


def cited(start):
    """All definition files that a file leads to."""
    seen, left = set(), [start]
    while left:
        it = left.pop()
        if it not in seen:
            seen.add(it)
            for crate, rest in re.findall(r'Rattle\.(\w+)\.specs((?:\.\w+)+)', text(*it)):
                left += stated_in(crate, rest.split('.')[1:])
    return seen


def with_numbers(page):
    """The page with its numbers, and the files that each part names."""
    parts, files = {}, []

    def row(found):
        names = [(found[2], name) for name in re.findall(r'[\w/]+', found[3])]
        files.extend(names)
        return f'| {found[1]} | {lines(names):,} |'

    pieces = re.split(r'(?m)^(?=## )', page)
    for k, piece in enumerate(pieces):
        files = []
        pieces[k] = ROW.sub(row, piece)
        if files:
            parts[piece.splitlines()[0][3:]] = files
    for title, named in parts.items():
        pieces[0] = re.sub(rf'\| {re.escape(title)} \| [\d,]+ \|', f'| {title} | {lines(named):,} |', pieces[0])
    return ''.join(pieces), parts


def main(words):
    with open(PAGE, encoding='utf-8') as file:
        page = file.read()
    wanted, parts = with_numbers(page)
    named = [it for files in parts.values() for it in files]
    wrong = [f'named twice: {it}' for it in sorted({it for it in named if named.count(it) > 1})]
    all_cited = cited(('pips_top', 'Run'))
    wrong += [f'not named: {crate}/{name}, {lines([(crate, name)])} lines' for crate, name in sorted(all_cited - set(named))]
    wrong += [f'named, not cited: {crate}/{name}' for crate, name in sorted(set(named) - all_cited)]
    if wanted != page and '--write' in words:
        with open(PAGE, 'w', encoding='utf-8') as file:
            file.write(wanted)
    elif wanted != page:
        wrong.append('the numbers of lines are not up to date: --write')
    print('\n'.join(wrong + [f'{title}: {len(files)} files, {lines(files):,} lines' for title, files in parts.items()]))
    print(f'cited by the contract: {len(all_cited)} files, {lines(all_cited):,} lines')
    return bool(wrong)


if __name__ == '__main__':
    sys.exit(main(sys.argv[1:]))
