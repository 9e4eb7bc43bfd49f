#!/usr/bin/env python3
"""The must-fail edits of the repository, those of the gate (crates/*/must-fail) and those that it leaves out for their cost (tests/edits).

    bench/edits.py [--kept] [CRATE ..]     tries the edits of these crates, or of all, in a work tree of the last commit, and writes a line of each crate into tests/edits/LAST
    bench/edits.py --left                  names the crates whose edits were never all tried, as LAST has it
    bench/edits.py --check                 looks only whether each edit can still be applied (seconds)

The work tree has the last commit, so what is not committed is not tried. What `./pips --build` left here is lent to it; with --kept it takes what a gate on this machine has kept instead. Without either each crate
with edits is proved there first, which takes hours. The prover must refuse each edit; the status is 0 where it does. A line of LAST: the crate, the commit and the date, how many edits were tried and refused, and
the minutes that it took; below it, indented, what was said of each that was not refused.
"""
import datetime
import os
import re
import shutil
import subprocess
import sys
import tempfile
import time
from dataclasses import dataclass, field
from typing import Dict, List, Tuple

TOP = os.path.dirname(os.path.dirname(os.path.abspath(__file__)))
EDITS = os.path.join('tests', 'edits')
LAST = os.path.join(EDITS, 'LAST')
HEAD = 'crate commit date tried refused minutes'


@dataclass
class Tried:
    """What the prover said of edits: how many it refused, and the others, each with the reason."""
    refused: int = 0
    others: List[str] = field(default_factory=list)


# ---- edits

def edits_of(top: str) -> Dict[str, List[str]]:
    """The files of the edits of each crate."""
    found: Dict[str, List[str]] = {}
    for crate in sorted(os.listdir(os.path.join(top, 'crates'))):
        folders = [os.path.join(top, 'crates', crate, 'must-fail'), os.path.join(top, EDITS, crate)]
        files = [os.path.join(folder, name) for folder in folders if os.path.isdir(folder) for name in sorted(os.listdir(folder)) if name.endswith('.edit')]
        if files:
            found[crate] = files
    return found


def changes_of(edit: str) -> List[Tuple[str, str, str]]:
    """The changes of an edit: a file of its crate, a text of it, and what stands there instead."""
    with open(edit, encoding='utf-8') as file:
        lines = [line.rstrip('\n').partition(': ') for line in file if line.strip()]
    changes, name, old = [], '', ''
    for key, _, value in lines:
        if key == 'file':
            name = value
        elif key == 'old':
            old = value
        elif key == 'new':
            changes.append((name, old, value))
    return changes


def misfit(crate: str, edit: str) -> str:
    """Why an edit cannot be applied, or nothing."""
    texts: Dict[str, str] = {}
    changes = changes_of(edit)
    for name, old, new in changes:
        path = os.path.join(TOP, 'crates', crate, name)
        if not os.path.exists(path):
            return f'there is no {name}'
        if name not in texts:
            with open(path, encoding='utf-8') as file:
                texts[name] = file.read()
        count = texts[name].count(old)
        if count != 1:
            return f'its old text stands {count} times in {name}'
        texts[name] = texts[name].replace(old, new)
    return '' if changes else 'it changes nothing'


def check() -> int:
    """Whether each edit can be applied."""
    folders = [name for name in os.listdir(os.path.join(TOP, EDITS)) if os.path.isdir(os.path.join(TOP, EDITS, name))]
    wrong = [f'{EDITS}/{name}: there is no such crate' for name in folders if not os.path.isdir(os.path.join(TOP, 'crates', name))]
    for crate, files in edits_of(TOP).items():
        wrong += [f'{os.path.relpath(file, TOP)}: {why}' for file in files for why in [misfit(crate, file)] if why]
    for line in wrong:
        print(line, file=sys.stderr)
    return int(bool(wrong))


# ---- trying them

def gather(tree: str, crates: List[str]) -> None:
    """Puts the edits of tests/edits where `rt must-fail` finds them."""
    for crate in crates:
        folder = os.path.join(tree, EDITS, crate)
        if os.path.isdir(folder):
            os.makedirs(os.path.join(tree, 'crates', crate, 'must-fail'), exist_ok=True)
            for name in sorted(os.listdir(folder)):
                os.replace(os.path.join(folder, name), os.path.join(tree, 'crates', crate, 'must-fail', name))


def link_or_copy(source: str, to: str) -> None:
    """A link where the kit replaces a file and never writes into it: in a library, and what was proved of a crate. Else a copy."""
    if f'{os.sep}rlib{os.sep}' in source or source.endswith('.oantt'):
        try:
            os.link(source, to)
            return
        except OSError:
            pass
    shutil.copy2(source, to)


def lend(tree: str) -> None:
    """Gives the work tree what was built here of each crate. The kit takes it where it is of the same sources."""
    for crate in os.listdir(os.path.join(tree, 'crates')):
        for part in ('rlib', 'incremental'):
            built = os.path.join(TOP, 'crates', crate, 'out', part)
            if os.path.isdir(built):
                shutil.copytree(built, os.path.join(tree, 'crates', crate, 'out', part), symlinks=True, copy_function=link_or_copy)


def try_crate(tree: str, crate: str, kept: bool) -> Tried:
    """Tries the edits of a crate, and passes on what the prover says."""
    tried = Tried()
    running = subprocess.Popen(['rt', 'ci' if kept else 'must-fail', crate], cwd=tree, stdout=subprocess.PIPE, stderr=subprocess.STDOUT, text=True, errors='replace')
    for line in running.stdout:
        if f'{crate}/' in line and '.edit: ' in line:
            print(line, end='', flush=True)
            if re.search(r': refused, as it must be', line):
                tried.refused += 1
            else:
                tried.others.append(line.strip())
    if running.wait() and not tried.others:
        tried.others.append('rt failed')
    return tried


def git(*words: str) -> str:
    return subprocess.run(['git', '-C', TOP, *words], stdout=subprocess.PIPE, check=True, text=True).stdout.strip()


# ---- what was found

def recorded() -> Dict[str, List[str]]:
    """The lines of LAST of each crate."""
    found: Dict[str, List[str]] = {}
    if os.path.exists(os.path.join(TOP, LAST)):
        with open(os.path.join(TOP, LAST), encoding='utf-8') as file:
            crate = ''
            for line in file.read().splitlines()[1:]:
                crate = crate if line.startswith(' ') else line.split()[0]
                found.setdefault(crate, []).append(line)
    return found


def record(crate: str, commit: str, tried: Tried, minutes: float) -> None:
    """Keeps what was found of the edits of a crate."""
    found = recorded()
    count = tried.refused + len(tried.others)
    found[crate] = [f'{crate} {commit} {datetime.date.today().isoformat()} {count} {tried.refused} {minutes:.1f}'] + [f'  {line}' for line in tried.others]
    with open(os.path.join(TOP, LAST), 'w', encoding='utf-8') as file:
        file.write('\n'.join([HEAD] + [line for name in sorted(found) for line in found[name]]) + '\n')


def left() -> int:
    """Prints each crate of which LAST has fewer edits than there are."""
    found = recorded()
    missing = [crate for crate, files in edits_of(TOP).items() if crate not in found or int(found[crate][0].split()[3]) < len(files)]
    print(' '.join(missing) or 'the edits of each crate were tried')
    return int(bool(missing))


def try_in_tree(crates: List[str], kept: bool) -> int:
    """Tries the edits of these crates in a work tree, one crate after another."""
    commit, failed = git('rev-parse', '--short=8', 'HEAD'), 0
    with tempfile.TemporaryDirectory(prefix='edits-') as room:
        tree = os.path.join(room, 'tree')
        git('worktree', 'add', '--detach', tree, commit)
        try:
            gather(tree, crates)
            if not kept:
                lend(tree)
            for crate in crates:
                start = time.monotonic()
                tried = try_crate(tree, crate, kept)
                record(crate, commit, tried, (time.monotonic() - start) / 60)
                failed += len(tried.others)
        finally:
            git('worktree', 'remove', '--force', tree)
    return int(failed > 0)


def main(words: List[str]) -> int:
    if words in (['--check'], ['--left']):
        return check() if words == ['--check'] else left()
    have, crates = edits_of(TOP), [word for word in words if word != '--kept']
    unknown = [word for word in crates if word not in have]
    if unknown:
        print(f'no edits of {" ".join(unknown)}', file=sys.stderr)
        return 2
    return try_in_tree(crates or list(have), '--kept' in words)


if __name__ == '__main__':
    sys.exit(main(sys.argv[1:]))
