#!/usr/bin/env python3
"""Times the projections and hulls that programs ask for, by the proved crates and by two libraries of the field.

    python3 bench/library.py [PATH_TO_CASES_ROWS [COUNT]]

The requests are those of the analyses of scalars and of READ and WRITE regions over COUNT random programs (50), recorded from the reference, which asks for the same as the command. The
libraries are isl (libisl.so.23, which C compilers bring along) and, where it is there, the Parma Polyhedra Library (libppl-dev): rational elimination of the variables without redundant rows, and the closed
convex hull of two systems; `bench/library.c` and `bench/ppl.cc` are compiled here. All read all requests as text; times are processor seconds with that. They need not answer alike: the libraries have no limit
of rows, and round otherwise or not at all.
"""
import os
import resource
import subprocess
import sys
import tempfile

import reference
from affine_text import case_text, system_text

PROFILES = ('affine', 'calls', 'common', 'jumps', 'loops', 'mixed', 'saved', 'shapes', 'small', 'storage')


def recorded(count):
    """The calls of project and hull: a kind, the variables that go, the systems."""
    asked = []
    modules = [reference.load(name) for name in ('affine', 'regions', 'scalars')]
    project, hull = modules[0].project, modules[0].hull

    def projected(sys_, variables):
        asked.append(('project', list(variables), [sys_]))
        return project(sys_, variables)

    def joined(a, b):
        asked.append(('hull', [], [a, b]))
        return hull(a, b)

    for module in modules:
        for name, other in (('project', projected), ('hull', joined)):
            if hasattr(module, name):
                setattr(module, name, other)
    programs = reference.load('programs')
    for seed in range(count):
        reference.answer(['--show', 'all'], programs.make(seed, PROFILES[seed % len(PROFILES)])[0])
    return asked


def numbers(kind, variables, systems):
    """A request as library.c reads it."""
    used = sorted({v for s in systems for row in s.rows for v, _ in row.terms} | set(variables))
    at = {v: k for k, v in enumerate(used)}
    out = [1 if kind == 'hull' else 0, len(used)]
    if kind == 'project':
        gone = sorted({at[v] for v in variables})
        out += [len(gone), *gone]
    for s in systems:
        out.append(len(s.rows))
        for row in s.rows:
            out += [int(row.equal), row.bound, len(row.terms)]
            out += [x for v, f in row.terms for x in (at[v], f)]
    return ' '.join(map(str, out))


def seconds(command, text):
    before = resource.getrusage(resource.RUSAGE_CHILDREN)
    subprocess.run(command, input=text.encode(), stdout=subprocess.DEVNULL, check=True)
    after = resource.getrusage(resource.RUSAGE_CHILDREN)
    return after.ru_utime + after.ru_stime - before.ru_utime - before.ru_stime


def libraries(place):
    """The libraries that are there: names, and programs that take requests."""
    found = []
    for name, command in (('isl', ['cc', '-O2', os.path.join(reference.HERE, 'library.c'), '-l:libisl.so.23']), ('PPL', ['c++', '-O2', os.path.join(reference.HERE, 'ppl.cc'), '-lppl', '-lgmpxx', '-lgmp'])):
        program = os.path.join(place, name)
        if subprocess.run([*command, '-o', program], stderr=subprocess.DEVNULL).returncode == 0:
            found.append((name, program))
        else:
            print(f'{name} is not there')
    return found


def main(*words):
    driver = os.path.abspath(words[0]) if words else os.path.join(reference.TOP, 'crates', 'cases_rows', 'out', 'cases_rows')
    asked = recorded(int(words[1]) if len(words) > 1 else 50)
    with tempfile.TemporaryDirectory() as place:
        programs = [('proved', driver), *libraries(place)]
        for kind in ('project', 'hull'):
            some = [a for a in asked if a[0] == kind]
            ours = ''.join(case_text(k, vs, [system_text(s) for s in ss]) + '\n' for k, vs, ss in some)
            theirs = ''.join(numbers(*a) + '\n' for a in some)
            took = [f'{name} {min(seconds([program], ours if name == "proved" else theirs) for _ in range(3)):.3f} s' for name, program in programs]
            print(f'{kind}: {len(some)} requests, ' + ', '.join(took), flush=True)


if __name__ == '__main__':
    main(*sys.argv[1:])
