#!/usr/bin/env python3
"""Looks at crates.txt: no row names a crate that its own does not use, none stands below its own row, and the paths through it are few.

    bench/crates.py

`rt ci` goes along each path through crates.txt about a dozen times, so their number is its time before the first proof.
"""
import os
import re
import sys
from typing import Dict, List, Set

TOP = os.path.dirname(os.path.dirname(os.path.abspath(__file__)))
MOST_PATHS = 1_000_000
PARTS = ('src', 'specs', 'proofs')


def rows() -> Dict[str, List[str]]:
    """The crates and libraries that each crate names, in the order of crates.txt."""
    with open(os.path.join(TOP, 'crates.txt'), encoding='utf-8') as file:
        lines = [line.partition(':') for line in file if ':' in line and not line.startswith('#')]
    return {name.strip(): used.split() for name, _, used in lines}


def used_in(text: str) -> Set[str]:
    """What a file may name: the first part of each path."""
    code = re.sub(r'(?m)^ *//.*$', '', text)
    return set(re.findall(r'\bRattle\.(\w+)\.', code)) | set(re.findall(r'(?<![\w.:])(\w+)::', code)) | set(re.findall(r'(?m)^ *pub use (\w+)(?: as \w+)?;', code))


def uses(crate: str) -> Set[str]:
    """What the files of a crate name."""
    found: Set[str] = set()
    for part in PARTS:
        for folder, _, names in os.walk(os.path.join(TOP, 'crates', crate, part)):
            for name in names:
                with open(os.path.join(folder, name), encoding='utf-8') as file:
                    found |= used_in(file.read())
    return found


def paths(listed: Dict[str, List[str]]) -> int:
    """How many paths lead down from all crates. Each crate stands behind those that it names."""
    count: Dict[str, int] = {}
    for crate, below in listed.items():
        count[crate] = 1 + sum(count[it] for it in below if it in count)
    return sum(count.values())


def main() -> int:
    listed = rows()
    wrong: List[str] = []
    above: Set[str] = set(listed)
    for crate, below in listed.items():
        wrong += [f'crates.txt: {crate} stands before {it}, which it names' for it in below if it in above]
        above.discard(crate)
        found = uses(crate)
        wrong += [f'crates.txt: {crate} names {it} and does not use it' for it in below if it not in found]
    total = paths(listed)
    if total > MOST_PATHS:
        wrong.append(f'crates.txt has {total} paths, more than {MOST_PATHS}')
    for line in wrong:
        print(line, file=sys.stderr)
    return int(bool(wrong))


if __name__ == '__main__':
    sys.exit(main())
