#!/usr/bin/env python3
"""Makes the cases of crates/cases_faults: its `stdin`, and its `stdout` by the answers of the reference.

    python3 bench/cases_faults.py

Runs over stores and sinks of which calls fail, bases that are cut, edited, stored or of another version, and texts that are cut, deep or long: each group of the table below is one function.
It stops where a stored base of tests/bases is not the one that the reference makes today (bench/stored_bases.py).
"""
import json
import sys
from collections import Counter
from dataclasses import dataclass, field

import stored_bases
from reference import STAGE, VERSION_1, load, whole, write_cases

BASE = ['--base', 'b.json']
pips = load('pips')

SMALL = b'      I=1\n      END\n'
SUMS = b'''      INTEGER A(9)
      DATA A/9*3/
      K=0
      L=0
      DO I=1,9
      J=A(I)
      K=K+J
      END DO
      DO I=1,9
      J=I
      L=MAX(L,J)
      END DO
      PRINT *,K,L
      END
'''
SMALLEST = b'      END\n'
CALLEE = b'''      PROGRAM P
      INTEGER B(100)
      DATA B/100*0/
      CALL INC(B,100)
      END
      SUBROUTINE INC(A,N)
      INTEGER A(N)
      DO 10 I=1,N
      A(I)=A(I)+1
   10 CONTINUE
      END
'''


@dataclass
class Case:
    """A run: its words, the files before it as pieces that come so many times, and the calls that fail."""
    words: list
    files: dict
    store: object = None
    out: object = None
    piece: object = None
    err: object = None

    def held(self):
        return {name: joined(data) for name, data in self.files.items()}

    def given(self):
        """The lines of the driver."""
        text = b''
        for name, data in self.files.items():
            pieces = [(1, data)] if isinstance(data, bytes) else data
            for count, piece in pieces[:-1]:
                text += piece + b'\n== more %d\n' % count
            count, piece = pieces[-1]
            text += (piece + b'\n' if count == 1 else piece + b'\n== more %d\n\n' % count) + b'== hold ' + name.encode() + b'\n'
        numbers = ['-' if number is None else str(number) for number in (self.store, self.out, self.piece, self.err)]
        return text + b'== run ' + b' '.join([number.encode() for number in numbers] + [as_word(word) for word in self.words]) + b'\n'

    def answer(self):
        files = self.held()
        store = pips.MemStore({name.encode(): data for name, data in files.items()}, [] if self.store is None else [self.store])
        out = pips.MemSink(self.piece or 1 << 30, [] if self.out is None else [self.out])
        err = pips.MemSink(self.piece or 1 << 30, [] if self.err is None else [self.err])
        status = pips.run([as_word(word) for word in self.words], store, out, err, STAGE)
        base = store.files.get(b'b.json')
        kept = b'== no base\n' if base is None else b'== base as before\n' if base == files.get('b.json') else b'== base\n' + base + b'\n'
        return status.name, b'== ' + status_text(status) + b'\n' + out.bytes + b'\n== err\n' + err.bytes + b'\n' + kept


def as_word(word):
    return word if isinstance(word, bytes) else word.encode()


def joined(data):
    return data if isinstance(data, bytes) else b''.join(piece * count for count, piece in data)


def status_text(status):
    """A status with its numbers, as the code writes it."""
    words = status.line.split()
    if status.name == 'Refused':
        return b'Refused(%d, %d)' % (int(words[2].rstrip(b':')), int(words[3]))
    if status.name == 'BadBase':
        return b'BadBase(%d)' % int(words[3])
    return status.name.encode()


def base_of(text, stage=STAGE):
    return whole([*BASE, 'p.f'], {'p.f': text}, stage)[3]['b.json']


def changed(base, change):
    """The text of a base whose JSON value was changed."""
    value = json.loads(base)
    change(value)
    return text_of(value)


def text_of(value):
    return json.dumps(value, ensure_ascii=False, separators=(',', ':'), sort_keys=True).encode()


def entry(value, kind, name):
    """A result with its kind, name and format number."""
    return next(r for r in value['results'] if (r['kind'], r['name']) == (kind, name))


def result(value, kind, name):
    return entry(value, kind, name)['value']


# ---- damaged bases

def prefixes():
    """Each proper prefix of a small base."""
    base = base_of(SMALLEST)
    for size in range(len(base)):
        yield Case([*BASE, 'p.f'], {'p.f': SMALLEST, 'b.json': base[:size]})


def versions_and_shapes():
    base = base_of(SMALLEST)
    for other in [base, base + b'\n', b' ' + base, base.replace(b'"pips":2', b'"pips":7'), base.replace(b'"pips":2,', b''), base.replace(b'"pips":2', b'"pips":"2"'), base.replace(b'"name":"MAIN"', b'"name":"P"', 1),
                  base.replace(b'"name":"MAIN"', b'"name":"main"', 1), base.replace(b'"results":[', b'"more":0,"results":['), base[:-2] + b']}}', b'{}', b'[]', b'null', b'{"pips":7}', SMALLEST, *of_two_versions(base)]:
        yield Case([*BASE, 'p.f'], {'p.f': SMALLEST, 'b.json': other})
        yield Case([*BASE, '--session', 's'], {'s': b'make MARKS MAIN\n', 'b.json': other})


def of_two_versions(base):
    """A base of version 1, and what is neither of version 1 nor of version 2."""
    old = base_of(SMALLEST, VERSION_1)
    return [old, b' ' + old, old.replace(b'"pips":1', b'"pips":2'), base.replace(b'"pips":2', b'"pips":1'), old.replace(b'"pips":1', b'"pips":"1"'), old.replace(b'"pips":1', b'"pips":0'), base.replace(b'"pips":2', b'"pips":3'),
            base.replace(b'"format":1,', b'', 1), old.replace(b'{"kind"', b'{"format":1,"kind"', 1), b'{"pips":3}', b'{"pips":2}']


def format_numbers():
    """Other format numbers of one result or two."""
    base = base_of(SMALLEST)
    for number in (0, 1, 2, 3, -1, 2 ** 63, 2 ** 64 - 1, 2 ** 64, 1.0, '1', None, [1]):
        for kind in ('EFFECTS', 'REGIONS', 'MARKS') if number in (0, 1, 2, 3) else ('PRECONDITIONS',):
            yield Case([*BASE, 'p.f'], {'p.f': SMALLEST, 'b.json': changed(base, lambda value: entry(value, kind, 'MAIN').update(format=number))})
    for low, high in (('EFFECTS', 'MARKS'), ('MARKS', 'EFFECTS')):
        def low_and_high(value):
            entry(value, low, 'MAIN')['format'], entry(value, high, 'MAIN')['format'] = 0, 3
        yield Case([*BASE, 'p.f'], {'p.f': SMALLEST, 'b.json': changed(base, low_and_high)})
    # a number that is not known beside a key more, a module of another name, a text that is refused, another order
    for change in (lambda value: value.update(more=0), lambda value: value['modules'][0].update(name='P'), lambda value: value['modules'][0].update(text='      EMD\n'), lambda value: value['results'].reverse()):
        for number in (1, 2):
            def both(value):
                entry(value, 'EFFECTS', 'MAIN')['format'] = number
                change(value)
            yield Case([*BASE, '--verify', 'p.f'], {'p.f': SMALLEST, 'b.json': changed(base, both)})


def big_numbers():
    """A bound and a factor of 2^62 and about it."""
    base = base_of(CALLEE)
    for number in (2 ** 62 - 1, 2 ** 62, -2 ** 62, 1 - 2 ** 62, 2 ** 63, 2 ** 64, 1.5):
        def bound(value):
            result(value, 'PRECONDITIONS', 'INC')['entry']['rows'][0][1] = number
        yield Case([*BASE, 'p.f'], {'p.f': CALLEE, 'b.json': changed(base, bound)})
    def higher(value):
        entry(value, 'PRECONDITIONS', 'INC')['format'] = 2
        bound(value)
    for number in (2 ** 62, 1.5):
        yield Case([*BASE, 'p.f'], {'p.f': CALLEE, 'b.json': changed(base, higher)})
        yield Case([*BASE, 'p.f'], {'p.f': CALLEE, 'b.json': changed(base_of(CALLEE, VERSION_1), bound)})


def edited(value):
    """The precondition of INC says another number."""
    result(value, 'PRECONDITIONS', 'INC')['entry']['rows'][0][1] = 99


def stale_later(value):
    """And the marks of INC are others."""
    edited(value)
    result(value, 'MARKS', 'INC')[0][1] = ['SERIAL', 'Jump']


def edited_bases():
    base = base_of(CALLEE)
    def in_first(value):
        result(value, 'EFFECTS', 'P')['summary']['io'] = True
    def marks_alone(value):
        result(value, 'MARKS', 'INC')[0][1] = ['SERIAL', 'Jump']
    def in_order(value):
        value['results'].sort(key=lambda r: r['kind'])
    for change in (edited, stale_later, in_first, marks_alone, in_order):
        held = {'p.f': CALLEE, 's': b'show PRECONDITIONS INC\nprint\n', 'b.json': changed(base, change)}
        for words in ([*BASE, 'p.f'], [*BASE, '--verify', 'p.f'], [*BASE, '--verify', '--session', 's'], [*BASE, '--session', 's'], [*BASE, '--verify', 'q.f']):
            yield Case(words, held)
    # a result of each kind; the first of those that are made otherwise is named
    for kinds in [[kind] for kind in OTHERWISE] + [['MARKS', 'IN_REGIONS'], ['OUT_REGIONS', 'REGIONS']]:
        def otherwise(value):
            for kind in kinds:
                OTHERWISE[kind](result(value, kind, 'INC'))
        yield Case([*BASE, '--verify', 'p.f'], {'p.f': CALLEE, 'b.json': changed(base, otherwise)})
    old = base_of(CALLEE, VERSION_1)
    for change in (edited, marks_alone, in_order):
        for words in ([*BASE, 'p.f'], [*BASE, '--verify', 'p.f']):
            yield Case(words, {'p.f': CALLEE, 'b.json': changed(old, change)})
    # a base is looked at before the text is; with none held nothing is stale
    yield Case([*BASE, '--verify', 'p.f'], {'p.f': b'', 'b.json': changed(base, edited)})
    yield Case([*BASE, '--verify', 'p.f'], {'p.f': CALLEE})
    yield Case([*BASE, '--verify', 'p.f'], {'p.f': CALLEE, 'b.json': base})
    # results of texts that do not link
    alone = {'modules': [{'name': 'INC', 'text': CALLEE.decode().split('      END\n')[1] + '      END\n'}], 'pips': 2, 'results': [r for r in json.loads(base)['results'] if r['name'] == 'INC']}
    yield Case([*BASE, '--verify', 'p.f'], {'p.f': CALLEE, 'b.json': text_of(alone)})
    yield Case([*BASE, 'p.f'], {'p.f': CALLEE, 'b.json': text_of(alone)})


# what makes another result of one of each kind
OTHERWISE = {
    'EFFECTS': lambda value: value['summary'].update(stops=True),
    'TRANSFORMERS': lambda value: value['summary']['system'].update(weak=True),
    'PRECONDITIONS': lambda value: value['entry']['rows'].clear(),
    'REGIONS': lambda value: value['summary'][0].update(exact=not value['summary'][0]['exact']),
    'IN_REGIONS': lambda value: value['summary'].reverse(),
    'OUT_REGIONS': lambda value: value['summary'].append({'exact': False, 'kind': 'OUT', 'of': 'A', 'pieces': [{'rows': [], 'weak': False}]}),
    'MARKS': lambda value: value[0].__setitem__(1, ['PARALLEL', 'I']),
}


def bases_of_today():
    """The stored bases of a program that has all that results of each kind may have: what is made today is what is stored, what has its present number is not made again, and the base is kept in version 2."""
    for line in stored_bases.faults(stored_bases.stored_bases()):
        sys.exit(line)
    for name, base in stored_bases.stored_bases().items():
        held = {'p.f': stored_bases.program(), 's': b'print\n', 'b.json': base}
        yield Case(['--show', 'bare', *BASE, '--verify', '--session', 's'], held)


# ---- bases in use

def bases_in_use():
    """A base of one program with others, with sessions, and after a session that made only some results."""
    base = base_of(CALLEE)
    end = CALLEE.index(b'      END\n') + len(b'      END\n')
    main, callee = CALLEE[:end], CALLEE[end:]
    more = b'      SUBROUTINE MORE\n      COMMON /B/ N\n      N=1\n      END\n'
    texts = [
        CALLEE, callee + main, main.replace(b'100)', b'90)') + callee, main + callee.replace(b'+1\n', b'+2\n'), b'C remark\n' + CALLEE, CALLEE.lower(), CALLEE.replace(b'I=1', b'J=1').replace(b'A(I)', b'A(J)'),
        CALLEE + more, more + CALLEE, main, callee, b'', CALLEE.replace(b'CALL INC(B,100)', b'CALL INC(B)'),
    ]
    old = base_of(CALLEE, VERSION_1)
    for text in texts:
        yield Case([*BASE, 'p.f'], {'p.f': text, 'b.json': base})
        yield Case(['--show', 'why', *BASE, '--verify', 'p.f'], {'p.f': text, 'b.json': base})
    for text in texts[:4] + texts[-4:]:
        yield Case(['--show', 'bare', *BASE, 'p.f'], {'p.f': text, 'b.json': old})
    part = whole([*BASE, '--session', 's'], {'s': b'source 11\n' + CALLEE + b'make PRECONDITIONS INC\n'})[3]['b.json']
    for script in (b'', b'make MARKS INC\n', b'show MARKS INC\nprint\n', b'drop P\nshow EFFECTS INC\n', b'source 0\nmake MARKS P\n', b'source 4\n' + more + b'make MARKS MORE\nprint\n', b'source 1\n      I=(\nprint\n', b'make MARKS NONE\n'):
        for held in (base, part, *[old] * (script[:4] in (b'', b'make', b'drop'))):
            yield Case([*BASE, '--session', 's'], {'s': script, 'b.json': held})
    yield Case([*BASE, '--verify', 'p.f'], {'p.f': CALLEE, 'b.json': part})
    yield Case([*BASE, 'p.f'], {'p.f': callee + main, 'b.json': part})


REDUCED = [*BASE, '--reductions']


def reductions_over_bases():
    """Loops are reduced by the results of the base, also by edited ones, and what is kept is what a run without the flag keeps."""
    base = base_of(SUMS)
    def no_sum(value):
        result(value, 'MARKS', 'MAIN')[0][1] = ['PARALLEL', 'J', 'K']
    def another_obstacle(value):
        result(value, 'MARKS', 'MAIN')[0][1] = ['SERIAL', 'Jump']
    def without_a_mark(value):
        result(value, 'MARKS', 'MAIN').pop()
    def nothing_read_first(value):
        for at, regions in result(value, 'IN_REGIONS', 'MAIN')['at']:
            regions[:] = [region for region in regions if region['of'] != 'K']
    def nothing_written(value):
        for at, regions in result(value, 'REGIONS', 'MAIN')['at']:
            regions[:] = [region for region in regions if region['of'] not in ('J', 'K')]
    bases = [base, base_of(SUMS, VERSION_1), base_of(SUMS.replace(b'3/', b'4/')), base_of(CALLEE)]
    for held in [*bases, *(changed(base, change) for change in (no_sum, another_obstacle, without_a_mark, nothing_read_first, nothing_written))]:
        yield Case(['--show', 'bare', *REDUCED, 'p.f'], {'p.f': SUMS, 'b.json': held})
        yield Case(['--show', 'why', *REDUCED, '--verify', 'p.f'], {'p.f': SUMS, 'b.json': held})
    yield Case([*REDUCED, 'p.f'], {'p.f': SUMS})
    yield Case(['--reductions', 'p.f'], {'p.f': SUMS, 'b.json': base})
    yield Case([*REDUCED, '--session', 's'], {'s': b'print\n', 'b.json': base})
    for call in range(3):
        yield Case(['--show', 'bare', *REDUCED, 'p.f'], {'p.f': SUMS, 'b.json': base}, store=call)
        yield Case(['--show', 'bare', *REDUCED, 'p.f'], {'p.f': SUMS}, out=call, piece=40)


BOUNDED = [*BASE, '--bounds']


def bounds_over_bases():
    """References are judged by the results of the base, also by edited ones: by preconditions, and by what transformers say that statements change."""
    base = base_of(CALLEE)
    def nothing_known(value):
        for at, system in result(value, 'PRECONDITIONS', 'INC')['at']:
            system['rows'].clear()
    def another_bound(value):
        for at, system in result(value, 'PRECONDITIONS', 'INC')['at'][1:]:
            system['rows'][2] = [0, 101, [['c', 3, 1]]]
    def no_point(value):
        for at, system in result(value, 'PRECONDITIONS', 'INC')['at']:
            system['rows'][:] = [[0, -1, []]]
    def missing(value):
        result(value, 'PRECONDITIONS', 'INC')['at'].pop(1)
    def size_is_changed(value):
        result(value, 'TRANSFORMERS', 'INC')['at'][0][1]['cells'][:0] = [2]
    bases = [base, base_of(CALLEE, VERSION_1), base_of(SUMS), *(changed(base, change) for change in (nothing_known, another_bound, no_point, missing, size_is_changed))]
    for held in bases:
        yield Case(['--show', 'bare', *BOUNDED, 'p.f'], {'p.f': CALLEE, 'b.json': held})
        yield Case(['--show', 'why', *BOUNDED, '--reductions', '--verify', 'p.f'], {'p.f': CALLEE, 'b.json': held})
    yield Case([*BOUNDED, 'p.f'], {'p.f': CALLEE})
    yield Case([*BOUNDED, '--reductions', 'p.f'], {'p.f': SUMS})
    yield Case(['--bounds', 'p.f'], {'p.f': CALLEE, 'b.json': base})
    yield Case([*BOUNDED, '--session', 's'], {'s': b'print\n', 'b.json': base})
    for call in range(3):
        yield Case(['--show', 'bare', *BOUNDED, 'p.f'], {'p.f': CALLEE, 'b.json': base}, store=call)
        yield Case(['--show', 'bare', *BOUNDED, 'p.f'], {'p.f': CALLEE}, out=call, piece=40)


# ---- the outside

def failing_stores():
    base = base_of(CALLEE)
    for held in ({'p.f': CALLEE}, {'p.f': CALLEE, 'b.json': base}, {'p.f': SMALLEST, 'b.json': base_of(SMALLEST, VERSION_1)}, {}):
        for call in range(4):
            yield Case(['p.f'], held, store=call)
            yield Case([*BASE, 'p.f'], held, store=call)
            yield Case([*BASE, '--verify', 'p.f'], held, store=call)
    yield Case(['--generate=4'], {}, store=0)


def failing_outs():
    written = whole(['p.f'], {'p.f': CALLEE})[1]
    for piece in (1, 7, 100):
        last = (len(written) - 1) // piece
        for call in sorted({0, 1, 2, last // 2, last, last + 1}):
            yield Case(['p.f'], {'p.f': CALLEE}, out=call, piece=piece)
    yield Case([*BASE, 'p.f'], {'p.f': SMALLEST}, out=0)
    yield Case(['--session', 's'], {'s': b'source 1\n' + SMALLEST + b'print\n'}, out=2, piece=7)
    yield Case(['p.f'], {'p.f': SMALL}, out=0, err=2, piece=5)


def failing_errs():
    """Each status with a line on err, whose first call fails, and its third."""
    base = base_of(CALLEE)
    cases = [(['p.f'], {'p.f': b''}, {}), (['--show', 'loud', 'p.f'], {'p.f': SMALL}, {}), (['q.f'], {'p.f': SMALL}, {}), (['p.f'], {'p.f': [(16_384, b'\n' * 64), (1, b'C')]}, {}), (['p.f'], {'p.f': SMALL}, {'store': 0}),
             (['p.f'], {'p.f': SMALL}, {'out': 0}), ([*BASE, 'p.f'], {'p.f': SMALL, 'b.json': b'{'}, {}), ([*BASE, '--verify', 'p.f'], {'p.f': CALLEE, 'b.json': changed(base, edited)}, {}),
             ([*BASE, 'p.f'], {'p.f': SMALL}, {'store': 1})]
    for words, held, more in cases:
        yield Case(words, held, err=None, **more)
        yield Case(words, held, err=0, **more)
        yield Case(words, held, err=2, piece=5, **more)


def words():
    """An empty word, one that is no text, and names that a base cannot have."""
    for some in ([''], ['', 'p.f'], [b'p.f\xff'], ['-x'], [*BASE, ''], ['--base', '', 'p.f'], ['--base', '-', 'p.f'], ['--base=', 'p.f'], ['--verify', 'p.f'], ['--base', 'p.f', 'p.f'], ['--base', 'b.json', '--base', 'b.json', 'p.f']):
        yield Case(some, {'p.f': SMALL})


# ---- texts

def cut_texts():
    for size in range(len(CALLEE) - 12, len(CALLEE) + 1):
        yield Case(['p.f'], {'p.f': CALLEE[:size]})
    for text in (CALLEE[:70], CALLEE[:100], CALLEE[:1]):
        yield Case(['p.f'], {'p.f': text})


def folded(statement):
    pieces = [statement[k:k + 66] for k in range(0, len(statement), 66)]
    return ('      ' + '\n     &'.join(pieces) + '\n').encode()


def deep_and_long():
    for depth in (64, 65):
        yield Case(['p.f'], {'p.f': b'      INTEGER A(9)\n' + folded('I=' + '(' * depth + '1' + ')' * depth) + SMALLEST})
    yield Case(['p.f'], {'p.f': [(16_384, b'\n' * 64)]})
    # 1,048,576 bytes, nearly all of comments that are dropped, and a byte more; 16,777,216 bytes of a base, and a byte more
    for more in (b'', b'C'):
        yield Case(['p.f'], {'p.f': [(349_522, b'C>\n'), (1, SMALLEST + more)]})
        yield Case([*BASE, 'p.f'], {'p.f': SMALLEST, 'b.json': [(262_144, b' ' * 64), (1, more)]})


def short_sources():
    for script in (b'source 3\n' + SMALL, b'source 3\n' + SMALL + b'\n', b'source 1', b'source 2\n' + SMALL + b'print\nsource 1\n', b'source 0', b''):
        yield Case(['--session', 's'], {'s': script})
        yield Case([*BASE, '--session', 's'], {'s': script})


GROUPS = [prefixes, versions_and_shapes, format_numbers, big_numbers, edited_bases, bases_of_today, bases_in_use, reductions_over_bases, bounds_over_bases, failing_stores, failing_outs, failing_errs, words, cut_texts, deep_and_long, short_sources]


def main():
    given, wanted, seen = [], [], {}
    for group in GROUPS:
        seen[group.__name__] = Counter()
        for case in group():
            name, answer = case.answer()
            seen[group.__name__][name] += 1
            given.append(case.given())
            wanted.append(answer)
    write_cases('cases_faults', given, wanted)
    for name, counts in seen.items():
        print(f'{name}: ' + ', '.join(f'{status} {count}' for status, count in sorted(counts.items())))
    print(f'{len(given)} runs, {sum(map(len, given))} and {sum(map(len, wanted))} bytes')


if __name__ == '__main__':
    sys.exit(main())
