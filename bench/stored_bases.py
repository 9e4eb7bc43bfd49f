#!/usr/bin/env python3
"""Compares the bases that are stored in tests/bases with what is made of the same program today. A change of what a stored kind holds must raise the format number of the kind; where it does not, the status is 1.

    python3 bench/stored_bases.py                   # by the reference
    python3 bench/stored_bases.py PATH_TO_PIPS      # by a program: it verifies each base, and makes no stored kind again where none has another number
    python3 bench/stored_bases.py --write NAME      # after a number was raised: stores tests/bases/NAME.json, with the present numbers

A result with the present number of its kind must be the one that is made today. Each kind must have results with its present number in some base. Files that are there never change.
"""
import os
import subprocess
import sys
import tempfile

from reference import STAGE, TOP, load, whole

FOLDER = os.path.join(TOP, 'tests', 'bases')
base_file, layout, session = map(load, ['base', 'layout', 'session'])


def content(*path):
    with open(os.path.join(*path), 'rb') as file:
        return file.read()


def program():
    return content(FOLDER, 'program.f')


def stored_bases():
    """The text of each stored base by the name of its file."""
    return {name: content(FOLDER, name) for name in sorted(os.listdir(FOLDER)) if name.endswith('.json')}


def fresh():
    """The text of the base that is kept for the program today."""
    return whole(['--base', 'b.json', 'p.f'], {'p.f': program()})[3]['b.json']


# ---- by the reference

def values(text):
    """The format number and the value of each result by its kind and name; no value where the number is lower than that of today."""
    base = base_file.base_read(text, STAGE)
    symbols = {name: layout.symbols(base_file.the_module(text, name, STAGE)) for name, text in zip(base.names, base.modules)}
    return {(r.kind, r.name): (r.format, None if r.value == base_file.OLD else base_file.value_json(r.kind, r.value, symbols[r.name], STAGE)) for r in base.results}


def faults(bases):
    """A line for each fault of the stored bases."""
    today, found = values(fresh()), set()
    for name, text in bases.items():
        stored = values(text)
        if stored.keys() != today.keys():
            yield f'{name} has other results than are made today'
        for key in stored.keys() & today.keys():
            number, value = stored[key]
            if number == today[key][0]:
                found.add(key)
                if value != today[key][1]:
                    yield f'{name}: {" of ".join(key)} is made otherwise today, and the format number of {key[0]} is still {number}'
    for kind in sorted({kind for kind, _ in today.keys() - found}):
        yield f'no stored base has {kind} with its present format number: bench/stored_bases.py --write NAME'


# ---- by a program

def run(binary, place, *words):
    return subprocess.run([binary, '--base', 'b.json', *words], cwd=place, stdin=subprocess.DEVNULL, stdout=subprocess.PIPE, stderr=subprocess.PIPE)


def put(place, **files):
    for name, data in files.items():
        with open(os.path.join(place, name), 'wb') as file:
            file.write(data)


def made_again(said):
    """The stored kinds of which a result was made, by the lines of a session."""
    return {line.split()[1] for line in said.decode('latin-1').splitlines() if line.startswith('made ')} & set(base_file.STORED)


def differences(binary, name, text, want):
    """A line for each difference of a program's runs over a stored base."""
    present = all(number == base_file.format_of(kind, STAGE) for (kind, _), (number, _) in values(text).items())
    with tempfile.TemporaryDirectory() as place:
        for words in (['--verify', 'p'], ['p'], ['--session', 's']):
            put(place, p=program(), s=b'print\n', **{'b.json': text})
            ran = run(binary, place, *words)
            if ran.returncode:
                yield f'{name}, {" ".join(words)}: status {ran.returncode}, {ran.stderr.decode("latin-1").strip()}'
            elif content(place, 'b.json') != want:
                yield f'{name}, {" ".join(words)}: another base is kept'
            elif present and '--session' in words and made_again(ran.stdout):
                yield f'{name}: made again: {" ".join(sorted(made_again(ran.stdout)))}'


def main(words):
    if words[:1] == ['--write']:
        with open(os.path.join(FOLDER, words[1] + '.json'), 'xb') as file:
            file.write(fresh())
        return 0
    bases = stored_bases()
    found = [line for name, text in bases.items() for line in differences(os.path.abspath(words[0]), name, text, fresh())] if words else list(faults(bases))
    print('\n'.join(found) or f'{len(bases)} stored bases: the results are those that are made today')
    return int(found != [])


if __name__ == '__main__':
    sys.exit(main(sys.argv[1:]))
