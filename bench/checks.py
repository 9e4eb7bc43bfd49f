#!/usr/bin/env python3
"""The checks that follow the gate, and need nothing built: stored files, pages and the report. Seconds; all that is said goes to standard error.

    python3 bench/checks.py
"""
import os
import subprocess
import sys

from reference import TOP

README_LIMIT = 10240
# where README.md has what is written, beside the source
COLUMN = 30
# examples, each with the end of the name of its written text
REPORTED = {'heat': 'out', 'relief': 'out', 'reading': 'out', 'totals': 'all_reduced', 'lookup': 'all_bounds'}


def passes(*words):
    """Whether a script of the repository ends with 0. What it says goes to standard error."""
    return subprocess.run([sys.executable, *words], cwd=TOP, stdout=sys.stderr).returncode == 0


def reported(name):
    """Whether the report of an example says on the terminal what is stored, from the stored text of the example."""
    words = ['tools/report.py', '--written', f'examples/{name}.{REPORTED[name]}', f'examples/{name}.f', '-o', os.devnull]
    ran = subprocess.run([sys.executable, *words], cwd=TOP, stdout=subprocess.PIPE)
    with open(os.path.join(TOP, 'tests', 'report', f'{name}.txt'), 'rb') as file:
        return ran.returncode == 0 and ran.stdout == file.read()


def lines_of(*names):
    with open(os.path.join(TOP, *names), encoding='utf-8') as file:
        return file.read().splitlines()


def shows_the_example():
    """Whether README.md has the program examples/demo.f, and beside it the beginning of what is written of it."""
    shown = [line[4:] for line in lines_of('README.md') if line.startswith('    ')]
    source, written = lines_of('examples', 'demo.f')[1:], lines_of('examples', 'demo.out')[1:]
    start = next(place for place, line in enumerate(shown) if line.startswith(source[0]))
    block = shown[start:shown.index(' ' * COLUMN + '..', start)]
    return [line[:COLUMN].rstrip() for line in block[:len(source)]] == source and [line[COLUMN:] for line in block] == written[:len(block)]


def can_be_executed():
    """Whether each script that names its interpreter may be executed, as README.md and docs/CONTRIBUTING.md do."""
    scripts = [os.path.join(TOP, folder, name) for folder in ('bench', 'tools') for name in sorted(os.listdir(os.path.join(TOP, folder))) if name.endswith(('.py', '.sh'))]
    refused = []
    for script in scripts:
        with open(script, 'rb') as file:
            if file.read(2) == b'#!' and not os.access(script, os.X_OK):
                refused.append(script)
    for script in refused:
        print(f'{os.path.relpath(script, TOP)} may not be executed', file=sys.stderr)
    return not refused


def checks():
    """Each check by its name."""
    yield 'the scripts may be executed', can_be_executed()
    yield 'the stored programs are packed', passes('bench/pack.py', '--check')
    yield 'the examples of docs/LANGUAGE.md', passes('bench/language.py')
    yield 'the counts of docs/DEFINITIONS.md', passes('bench/believed.py')
    yield 'the files that docs/DEFINITIONS.md names', passes('bench/definitions.py')
    yield 'each must-fail edit can be applied', passes('bench/edits.py', '--check')
    yield 'crates.txt names what is used, and has few paths', passes('bench/crates.py')
    yield 'few lemmas stand in two crates', passes('bench/lemmas.py')
    yield 'the stored bases of tests/bases are those of today', passes('bench/stored_bases.py')
    for name in REPORTED:
        yield f'the report of examples/{name}.f', reported(name)
    yield 'two pages of the report are not too wide', passes('bench/page_width.py')
    yield 'README.md shows examples/demo.f', shows_the_example()
    yield f'README.md has at most {README_LIMIT} bytes', os.path.getsize(os.path.join(TOP, 'README.md')) <= README_LIMIT


def main():
    failed = [name for name, passed in checks() if not passed]
    for name in failed:
        print(f'FAILED: {name}', file=sys.stderr)
    print(f'checks: {"all passed" if not failed else f"{len(failed)} failed"}', file=sys.stderr)
    return bool(failed)


if __name__ == '__main__':
    sys.exit(main())
