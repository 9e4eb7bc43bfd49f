#!/usr/bin/env python3
"""Makes the cases of crates/cases_sessions: its `stdin`, and its `stdout` by the answers of the reference.

    python3 bench/cases_sessions.py [COUNT]     # with so many random sessions of 30 commands each (200 unless given), beside those by hand

The scripts of tests/sessions come first, with the answers that are wanted beside each; it stops where the reference gives another one.
"""
import os
import sys
from collections import Counter

from reference import STAGE, TOP, whole, write_cases
from session_programs import sessions


def content(*path):
    with open(os.path.join(TOP, 'tests', 'sessions', *path), 'rb') as file:
        return file.read()


def stored():
    """What is shown, a script and the wanted answer, None where the reference gives it."""
    for name in sorted(os.listdir(os.path.join(TOP, 'tests', 'sessions'))):
        if name.endswith('.script'):
            yield 'all', content(name), content(name[:-len('.script')] + '.out')


def cases(count):
    yield from stored()
    for show, script in sessions(count):
        yield show, script, None


def main(words):
    given, wanted, codes = [], [], Counter()
    for show, script, answer in cases(int(words[0]) if words else 200):
        status, out, err, _ = whole(['--show', show, '--session', 's'], {'s': script}, STAGE)
        if status or err:
            sys.exit(f'status {status}: {err}')
        if answer not in (None, out):
            sys.exit(f'another answer is wanted:\n{answer.decode()}')
        codes.update(int(line.split()[1]) for line in out.split(b'\n') if line.startswith(b'refused '))
        given.append(script + b'\n== ' + show.encode() + b'\n')
        wanted.append(b'==\n' + out)
    write_cases('cases_sessions', given, wanted)
    print(f'{len(given)} sessions, {sum(map(len, given))} and {sum(map(len, wanted))} bytes; refused: ' + ', '.join(f'{code} {count}' for code, count in sorted(codes.items())))


if __name__ == '__main__':
    main(sys.argv[1:])
