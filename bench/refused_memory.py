#!/usr/bin/env python3
"""Refuses the built program one request for memory after another: each time it must answer Memory, with nothing on out, or what it answers else; and the base must be as before, or as it is kept else.

    python3 bench/refused_memory.py [PATH_TO_PIPS [STEP [CASE..]]]      # STEP: only each STEPth request; CASEs: those whose names have one of these words

The cases are a program (examples/heat.f), a session, and uses of a base: none held before, with one module changed, by a session, with --verify, and one that is refused. bench/refused_memory.c is compiled
and loaded before the C library: at each request the process forks, and the child, which gets no memory for this request, goes on to its end in a copy of the folder. What the whole run answers is what the
reference says. Prints for each case how many requests it makes, and how the runs ended. Nothing is said of the kit's own `rt try --fail-alloc N`, which builds the program anew for each N.
"""
import os
import struct
import subprocess
import sys
import tempfile
from collections import Counter
from dataclasses import dataclass

import reference
from command_runs import BASE, STATUSES, Answer, content
from measure import binary_of

MEMORY = Answer(10, b'', b'pips: out of memory\n', {})


@dataclass
class Case:
    """A run: its words, and the files before it."""
    name: str
    words: list
    files: dict


def program():
    return content(os.path.join(reference.TOP, 'examples', 'heat.f'))


def session():
    """A caller whose constant changes and comes back, a text that is refused, and all of it printed."""
    return content(os.path.join(reference.TOP, 'tests', 'sessions', 'caller_restored.script'))


def cases():
    text = program()
    changed = text.replace(b'100', b'90')
    kept = reference.whole([*BASE, 'p.f'], {'p.f': text})[3]['b.json']
    stale = kept.replace(b'"io":false', b'"io":true', 1)
    return [
        Case('a program', ['p.f'], {'p.f': text}),
        Case('a program that is refused', ['p.f'], {'p.f': text + b'      X=1\n      END\n'}),
        Case('a session', ['--session', 's'], {'s': session()}),
        Case('a base, none before', [*BASE, 'p.f'], {'p.f': text}),
        Case('a base, a module changed', [*BASE, 'p.f'], {'p.f': changed, 'b.json': kept}),
        Case('a base and a session', [*BASE, '--session', 's'], {'s': session(), 'b.json': kept}),
        Case('a base, verified', [*BASE, '--verify', 'p.f'], {'p.f': text, 'b.json': kept}),
        Case('a base, found stale', [*BASE, '--verify', 'p.f'], {'p.f': text, 'b.json': stale}),
        Case('a base that is no JSON', [*BASE, 'p.f'], {'p.f': text, 'b.json': kept[:-1]}),
    ]


def fill(place, files):
    for name, data in files.items():
        with open(os.path.join(place, name), 'wb') as file:
            file.write(data)


def answer_in(place, status):
    """The answer that lies in a folder, where out and err are files."""
    files = {name: content(os.path.join(place, name)) for name in os.listdir(place)}
    return Answer(status, files.pop('.out'), files.pop('.err'), files)


def answers(binary, library, case, step):
    """Runs a case. Gives each request that is refused with the answer of the child that it is refused, and at last 0 with the answer of the whole run."""
    with tempfile.TemporaryDirectory() as place, tempfile.TemporaryDirectory() as copy:
        fill(place, case.files)
        told, to = os.pipe()
        heard, hear = os.pipe()
        more = {'LD_PRELOAD': library, 'REFUSED_STEP': str(step), 'REFUSED_TOLD': str(to), 'REFUSED_HEARD': str(heard), 'REFUSED_COPY': copy}
        with open(os.path.join(place, '.out'), 'wb') as out, open(os.path.join(place, '.err'), 'wb') as err:
            begun = subprocess.Popen([binary, *case.words], cwd=place, env={**os.environ, **more}, pass_fds=[to, heard], stdin=subprocess.DEVNULL, stdout=out, stderr=err)
        os.close(to)
        os.close(heard)
        with os.fdopen(told, 'rb') as from_library, os.fdopen(hear, 'wb', buffering=0) as to_library:
            while said := from_library.read(16):
                request, status = struct.unpack('ll', said)
                yield request, answer_in(copy, status)
                for name in os.listdir(copy):
                    os.remove(os.path.join(copy, name))
                to_library.write(b'+')
        yield 0, answer_in(place, begun.wait())


def fault_of(answer, wanted, case):
    """What is wrong with an answer, if anything is."""
    if answer == wanted:
        return ''
    if answer.status != MEMORY.status:
        return f'status {answer.status}, {STATUSES.get(answer.status, "which is none")}' + (', other bytes' if answer.status == wanted.status else '')
    if answer.out:
        return f'{len(answer.out)} bytes on out beside Memory'
    if answer.err != MEMORY.err:
        return f'on err {answer.err!r}'
    if answer.files not in (case.files, wanted.files):
        return 'files that are neither those before nor those of the whole run'
    return ''


def tried(binary, library, case, step):
    """Refuses one request after another. Returns whether all answers are good."""
    wanted = Answer(*reference.whole(case.words, case.files))
    ended, faults, last = Counter(), 0, 0
    for request, answer in answers(binary, library, case, step):
        fault = fault_of(answer, wanted, case) if request else '' if answer == wanted else f'{answer.name()}, and {wanted.name()} by the reference'
        if fault:
            faults += 1
            print(f'{case.name}, {f"request {request}" if request else "the whole run"}: {fault}', flush=True)
        if request:
            last = request
            ended[answer.name()] += 1
    if not last:
        sys.exit(f'{case.name}: no request was seen: the program does not take its memory from the C library')
    print(f'{case.name}: {last} requests, {sum(ended.values())} refused; the whole run ends with {wanted.name()}; ' + ', '.join(f'{name}: {ended[name]}' for name in sorted(ended)) + f'; {faults} wrong', flush=True)
    return faults == 0


def main(*words):
    binary, step = binary_of(words[:1]), int(words[1]) if len(words) > 1 else 1
    with tempfile.TemporaryDirectory() as place:
        library = os.path.join(place, 'refused_memory.so')
        subprocess.run(['cc', '-O2', '-shared', '-fPIC', '-o', library, os.path.join(reference.HERE, 'refused_memory.c')], check=True)
        good = [tried(binary, library, case, step) for case in cases() if not words[2:] or any(word in case.name for word in words[2:])]
    return 0 if all(good) else 1


if __name__ == '__main__':
    sys.exit(main(*sys.argv[1:]))
