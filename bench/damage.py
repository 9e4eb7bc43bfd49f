#!/usr/bin/env python3
"""Damages bases, texts and scripts from a seed, and compares what the built program answers with the reference: no crash, no exit number but those of the command, the same bytes on out and on err, and the
same base afterwards.

    python3 bench/damage.py COUNT SEED [PATH_TO_PIPS [JOBS [FIRST [PART..]]]]       # PATH_TO_PIPS `reference`: the reference as a program, to try the script

COUNT bases of version 2 or 1 that the reference keeps for small programs, damaged as JSON values (bench/cases_bases.py) or as bytes (flipped, cut, dropped, doubled, numbers edited, pieces exchanged), each opened with
its program or with another one, with a script, with `--verify`, `--reductions` or `--bounds`; and COUNT texts and scripts, damaged as bytes and lines. Prints how the runs ended. A run that differs is written to the
folder for temporary files. Results that nobody would make can be such that the reference has no answer; of these only crashes are looked for. Others are such that nothing says what is made of them,
regions that name a subscript which their variable does not have: where their answers differ they are counted apart.
FIRST: the number of the first case, if not 0; stderr tells how far it is, so that a run that was cut off can be gone on with. PARTs: bases, texts; both of them unless one is named.
"""
import json
import random
import re
import sys
from functools import cache, partial

import reference
from cases_bases import BY_HAND, BY_TEXT, BY_VALUE, text_of
from changed_programs import Changes, made_program
from command_runs import BASE, Step, compare, program_of
from session_agreement import as_bytes, flags, shown

# how many programs there are, and how many bytes of a base are damaged at most
POOL, LONGEST = 48, 6_000


# ---- bytes

def place(pick, data):
    return pick.randrange(len(data) + 1)


def flipped(pick, data):
    """Some bytes are others, most by one bit."""
    other = bytearray(data)
    for _ in range(pick.choice([1, 1, 2, 5])):
        if other:
            at = pick.randrange(len(other))
            other[at] = other[at] ^ (1 << pick.randrange(8)) if pick.random() < .7 else pick.randrange(256)
    return bytes(other)


def cut(pick, data):
    return data[:place(pick, data)]


def cut_in_front(pick, data):
    return data[place(pick, data):]


def dropped(pick, data):
    at = place(pick, data)
    return data[:at] + data[at + pick.choice([1, 2, 9, 40]):]


def doubled(pick, data):
    at = place(pick, data)
    end = at + pick.choice([1, 2, 9, 40])
    return data[:end] + data[at:end] + data[end:]


def exchanged(pick, data):
    """Two pieces have changed places."""
    a, b, c = sorted(place(pick, data) for _ in range(3))
    return data[:a] + data[b:c] + data[a:b] + data[c:]


def number_edited(pick, data):
    found = list(re.finditer(rb'-?[0-9]+', data))
    if not found:
        return data
    m = pick.choice(found)
    n = int(m[0])
    other = pick.choice([n + 1, n - 1, -n, 0, n * 10, 2 ** 31, 2 ** 31 - 1, 2 ** 62, 2 ** 62 - 1, -2 ** 62, 2 ** 63, 2 ** 64, 10 ** 30])
    return data[:m.start()] + str(other).encode() + data[m.end():]


BY_BYTES = [flipped, flipped, flipped, cut, cut, cut_in_front, dropped, doubled, exchanged, number_edited, number_edited, number_edited]


# ---- lines

def line_dropped(pick, lines):
    del lines[pick.randrange(len(lines))]


def line_doubled(pick, lines):
    at = pick.randrange(len(lines))
    lines.insert(at, lines[at])


def lines_swapped(pick, lines):
    a, b = pick.randrange(len(lines)), pick.randrange(len(lines))
    lines[a], lines[b] = lines[b], lines[a]


def line_shifted(pick, lines):
    at = pick.randrange(len(lines))
    lines[at] = pick.choice([lines[at][1:], b' ' + lines[at], lines[at].replace(b' ', b'', 1), b'\t' + lines[at][6:], lines[at] + b'\r', lines[at] + b' ' * 70 + b'X'])


def lines_joined(pick, lines):
    at = pick.randrange(len(lines))
    lines[at:at + 2] = [b''.join(lines[at:at + 2])]


BY_LINES = [line_dropped, line_doubled, lines_swapped, lines_swapped, line_shifted, lines_joined]


def damaged(pick, data):
    """A text or a script, damaged at one place to three."""
    for _ in range(pick.choice([1, 1, 2, 3])):
        if pick.random() < .5 and data:
            lines = data.split(b'\n')
            pick.choice(BY_LINES)(pick, lines)
            data = b'\n'.join(lines)
        else:
            data = pick.choice(BY_BYTES)(pick, data)
    return data


# ---- bases

def program_text(number):
    """A small program of the pool."""
    return BY_HAND[number] if number < len(BY_HAND) else made_program(number).text()


@cache
def base_of(number, stage=reference.STAGE):
    """The base that a run on a program of the pool keeps, or a session on it; None where the program is refused."""
    text = as_bytes(program_text(number))
    if number % 3 == 0:
        script = f'source {len(text.splitlines())}\n'.encode() + text + b'show MARKS P\n'
        return reference.whole([*BASE, '--session', 's'], {'s': script}, stage)[3].get('b.json')
    return reference.whole([*BASE, 'p.f'], {'p.f': text}, stage)[3].get('b.json')


def with_fewer(pick, value):
    """The same value with so many results that its text is short."""
    while value['results'] and len(json.dumps(value)) > LONGEST:
        value['results'].pop(pick.randrange(len(value['results'])))
    return value


def damaged_base(pick, data):
    if pick.random() < .3:
        data = text_of(with_fewer(pick, json.loads(data)))
    kind = pick.random()
    if kind < .55:
        return text_of(pick.choice(BY_VALUE)(json.loads(data), pick))
    return pick.choice(BY_TEXT)(data, pick) if kind < .65 else pick.choice(BY_BYTES)(pick, data)


def has_subscript_too_many(data):
    """Whether a region of a base names a subscript that its variable does not have. No analysis makes such a region, a base may hold it, and no clause says what analyses make of it."""
    bases, layout = reference.load('base'), reference.load('layout')
    try:
        base = bases.base_read(data, reference.STAGE)
    except bases.BadBase:
        return False
    texts = dict(zip(base.names, base.modules))
    for stored in base.results:
        if stored.kind in bases.REGION_KINDS:
            symbols = layout.symbols(bases.the_module(texts[stored.name], stored.name, reference.STAGE))
            found = [region for regions in [stored.value.summary, *stored.value.at.values()] for region in regions]
            if any(has_more_than(rank_of(symbols, region.variable), region) for region in found):
                return True
    return False


def rank_of(symbols, variable):
    """How many subscripts a variable has; of a saved variable of another module any number is taken."""
    return len(symbols[variable[1] - 1].bounds) if variable[0] == 'Own' else 1 if variable[0] == 'Block' else 255


def has_more_than(rank, region):
    phi = reference.load('model').PHI
    return any(v[0] == phi and not 1 <= v[1] <= rank for piece in region.pieces for row in piece.rows for v, _ in row.terms)


def is_open(words, files):
    return '--verify' not in words and has_subscript_too_many(files['b.json'])


def usable(pick):
    """The number of a program that has a base."""
    while True:
        number = pick.randrange(POOL)
        if base_of(number):
            return number


def base_steps(seed, number):
    """A damaged base and what is done with it; a second run with what was kept then."""
    pick = random.Random(f'{seed} {number}')
    chosen = usable(pick)
    text = as_bytes(program_text(chosen if pick.random() < .8 else usable(pick)))
    stage = pick.choice([reference.VERSION_1, reference.FORMATS_1]) if pick.random() < .4 else reference.STAGE
    files = {'b.json': damaged_base(pick, base_of(chosen, stage)), 'p.f': text, 's': pick.choice([b'', b'print\n', b'show MARKS P\nprint\n', b'make PRINTED P\n'])}
    verify = ['--verify'] if pick.random() < .4 else []
    use = ['--session', 's'] if pick.random() < .3 else [*flags(pick), 'p.f']
    words = [*shown(pick), *BASE, *verify, *use]
    yield Step(words, files, partial(is_open, words))
    if pick.random() < .1:
        yield Step([*BASE, 'p.f'], {})


# ---- texts and scripts

def text_steps(seed, number):
    """A damaged text, with a base or without; or a damaged script."""
    pick = random.Random(f'{seed} {number} text')
    base = BASE if pick.random() < .2 else []
    if number % 2:
        script = Changes(f'{seed} {number}').session(pick.randint(1, 8))
        yield Step([*shown(pick), *base, '--session', 'p.f'], {'p.f': damaged(pick, as_bytes(script))})
    else:
        text = program_text(pick.randrange(POOL)) if pick.random() < .5 else reference.load('programs').make(pick.randrange(10 ** 6), pick.choice(['tiny', 'small', 'sums', 'edges', 'refs']))[0]
        yield Step([*shown(pick), *base, *flags(pick), 'p.f'], {'p.f': damaged(pick, as_bytes(text))})


class Named:
    """A function of numbers with its seed, which another process can be handed."""

    def __init__(self, make, seed):
        self.make, self.seed = make, seed
        self.__name__ = f'{make.__name__}-{seed}'

    def __call__(self, number):
        return self.make(self.seed, number)


PARTS = {'bases': ('damaged bases', base_steps), 'texts': ('damaged texts and scripts', text_steps)}


def main(count, seed, *others):
    binary, jobs = program_of(others[:2])
    numbers = range(int(others[2]) if others[2:] else 0, int(count))
    same = [compare(what, binary, Named(make, seed), numbers, jobs) for part, (what, make) in PARTS.items() if part in (others[3:] or PARTS)]
    return 0 if all(same) else 1


if __name__ == '__main__':
    sys.exit(main(*sys.argv[1:]))
