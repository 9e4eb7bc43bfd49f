#!/usr/bin/env python3
"""Makes the cases of crates/cases_bases: its `stdin`, and its `stdout` by the answers of the reference.

    python3 bench/cases_bases.py [SEEDS]

The bases are those that sessions on programs by hand and random ones keep, with all results or some, each in version 2, in version 1, and some in version 2 as it was kept when every kind had the format number 1. From them come damaged ones: other shapes, keys,
versions, format numbers, names, rows, numbers, orders, and texts that end too soon. A table has each version and each format number alone.
"""
import json
import random
import re
import sys
from collections import Counter

from reference import FORMATS_1, STAGE, VERSION_1, load, write_cases

base_file, programs, session = map(load, ['base', 'programs', 'session'])

# bytes of the text of a base with some results, and of one with all
LONGEST = 3_500
# the smallest text: one module without results
SMALLEST = b'{"modules":[{"name":"MAIN","text":"      END\\n"}],"pips":2,"results":[]}'

BY_HAND = [
    '      END\n',
    '      PROGRAM P\n      INTEGER A(9)\n      COMMON /B/ K\n      DO 10 I=1,9\n      A(I)=I+K\n   10 CONTINUE\n      CALL S(A,K)\n      PRINT *,A(1)\n      END\n'
    '      SUBROUTINE S(X,N)\n      INTEGER X(9)\n      COMMON /B/ L\n      SAVE M\n      DO 20 J=2,9\n      X(J)=X(J-1)+L+M\n   20 CONTINUE\n      M=M+1\n      RETURN\n      END\n',
    '      SUBROUTINE S\n      COMMON K\n      IF (K.GT.0) THEN\n      K=K-1\n      ELSE\n      STOP\n      END IF\n      END\n      CALL S\n      END\n',
    '      DO 10 I=1,5\n      IF (I.EQ.3) GOTO 20\n   10 CONTINUE\n   20 CONTINUE\n      DO 30 J=1,5,2\n      READ *,K\n   30 CONTINUE\n      END\n',
    '      PROGRAM P\n      INTEGER A(5)\n      DO 10 WHILE (I.LT.5)\n      I=NEXT(I)\n   10 A(I)=I\n      IF (I.GT.3) J=NEXT(A(2))\n      PRINT *,I,J\n      END\n      FUNCTION NEXT(K)\n      NEXT=K+1\n      END\n',
    'C caf\xe9 "quoted" \\ \x7f\n      PRINT *,\'A B\'\n      END\n',
]


def random_texts(seeds):
    for seed in range(seeds):
        yield programs.make(seed, ('tiny', 'sums', 'refs')[seed % 3])[0]


def base_of(text, stage=STAGE):
    """What a session on a text keeps after all results were made; None where the text is refused."""
    db = session.Db(stage)
    try:
        db.replace_all(text)
        for name in db.names:
            for kind in base_file.STORED:
                db.make(kind, name)
    except session.DbRefusal:
        return None
    return db.save()


def in_version_1(base):
    """The text of a base, without format numbers."""
    return base_file.base_write(base, VERSION_1)


def with_some(base, r, stage=STAGE):
    """The text of the base with so many of its results, at random, that it is not too long."""
    results = list(base.results)
    while True:
        text = base_file.base_write(base_file.Base(base.modules, base.names, results), stage)
        if len(text) <= LONGEST or not results:
            return text
        results.pop(r.randrange(len(results)))


# ---- damage

def places(value, test, path=()):
    """The paths to the parts of a JSON value that pass a test."""
    if test(value):
        yield path
    inside = value.items() if isinstance(value, dict) else enumerate(value) if isinstance(value, list) else ()
    for key, part in inside:
        yield from places(part, test, path + (key,))


def part_at(value, path):
    for key in path:
        value = value[key]
    return value


def set_at(value, path, part):
    if not path:
        return part
    part_at(value, path[:-1])[path[-1]] = part
    return value


def is_row(value):
    return isinstance(value, list) and len(value) == 3 and type(value[0]) is int and isinstance(value[2], list)


def is_number(value):
    return type(value) is int


def with_row(change):
    """Changes one row."""
    def damage(value, r):
        rows = list(places(value, lambda v: is_row(v) and v[2] != []))
        if rows:
            row = part_at(value, r.choice(rows))
            change(row, r)
        return value
    damage.__name__ = change.__name__
    return damage


def number_at_random(value, r):
    """Another number in the place of one."""
    path = r.choice(list(places(value, is_number)))
    number = part_at(value, path)
    return set_at(value, path, r.choice([number + 1, -number - 1, 2 ** 32, 2 ** 62, -2 ** 62, 2 ** 63, -2 ** 63, 2 ** 64 - 1, 2 ** 64, number + 0.5, str(number), None, True]))


def key_missing(value, r):
    objects = [path for path in places(value, lambda v: isinstance(v, dict))]
    inside = part_at(value, r.choice(objects))
    inside.pop(r.choice(list(inside)))
    return value


def key_more(value, r):
    objects = [path for path in places(value, lambda v: isinstance(v, dict))]
    part_at(value, r.choice(objects))[r.choice(['more', 'format', 'pieces', 'Name', ''])] = r.choice([0, None, []])
    return value


def other_part(value, r):
    """Another value in the place of one."""
    path = r.choice(list(places(value, lambda v: True)))
    return set_at(value, path, r.choice([None, True, 0, 1, -1, 'X', '', [], {}, [1, 2], 1.5]))


def other_version(value, r):
    value['pips'] = r.choice([0, 1, 1, 2, 2, 3, 7, -1, 2 ** 63, 1.0, '1', None, 2 ** 64, True])
    return value


# in the place of a version or of a format number; the last one is not there
NUMBERS = [0, 1, 2, 3, 7, -1, 2 ** 63, 2 ** 64 - 1, 2 ** 64, 1.0, 2.5, '1', '2', None, True, [1], 'missing']


def with_number(value, key, number):
    """Another number of a version or a format."""
    if number == 'missing':
        value.pop(key, None)
    else:
        value[key] = number


def other_format(value, r):
    """Another format number, or none, of one result or a few."""
    for result in r.sample(value['results'], min(len(value['results']), r.choice([1, 1, 2, 3]))):
        with_number(result, 'format', r.choice(NUMBERS))
    return value


def format_besides(value, r):
    """Another format number beside another damage."""
    return r.choice([other_part, other_name, other_text, twice, swapped, other_kind, key_more, key_missing, with_row(too_big)])(other_format(value, r), r)


def other_pieces(value, r):
    """Another number of systems of a region: none, some, as many as there may be, or one too many."""
    found = list(places(value, lambda part: isinstance(part, dict) and isinstance(part.get('pieces'), list)))
    if found:
        region = part_at(value, r.choice(found))
        region['pieces'] = (region['pieces'] * 5)[:r.choice([0, 2, 4, 5, 5])]
    return value


def raised(value, r):
    """A format number that is not known, or one below 1, and beside it a number of a row that is too big or another damage."""
    if value['results']:
        r.choice(value['results'])['format'] = r.choice([0, 2, 3])
    return r.choice([with_row(too_big), other_format, other_text, dropped])(value, r)


def other_name(value, r):
    part = r.choice(value['modules'] + value['results'])
    part['name'] = r.choice([part['name'].lower(), part['name'] + 'X', '', 'P', 'NONE', part['name'][:1], '\u0141', 7])
    return value


def other_text(value, r):
    module = r.choice(value['modules'])
    text = module['text']
    at = r.randrange(len(text) + 1)
    module['text'] = r.choice([text[:at], text[:at] + '\u0100' + text[at:], text + text, '', text + 'C END\n', text.replace('END', 'EMD'), 'C\n' + text, text.lower(), text[:at] + '(' + text[at:]])
    return value


def twice(value, r):
    part = r.choice([p for p in (value['modules'], value['results']) if p])
    part.insert(r.randrange(len(part) + 1), json.loads(json.dumps(r.choice(part))))
    return value


def swapped(value, r):
    part = r.choice([p for p in (value['modules'], value['results']) if len(p) > 1] or [value['modules']])
    i, j = r.randrange(len(part)), r.randrange(len(part))
    part[i], part[j] = part[j], part[i]
    return value


def other_kind(value, r):
    if value['results']:
        r.choice(value['results'])['kind'] = r.choice(base_file.KINDS + ('Effects', '', 'REGION'))
    return value


def dropped(value, r):
    """A part of a list is gone."""
    lists = list(places(value, lambda v: isinstance(v, list) and v != []))
    inside = part_at(value, r.choice(lists))
    inside.pop(r.randrange(len(inside)))
    return value


def less_of_it(value, r):
    """Some results are gone: not damage, where they are results of later modules or not."""
    value['results'] = [x for x in value['results'] if r.random() < 0.5]
    return value


def too_big(row, r):
    row[1] = r.choice([2 ** 62, -2 ** 62, 2 ** 62 - 1, 1 - 2 ** 62, 2 ** 63 - 1, -2 ** 63, 2 ** 64 - 1, 2 ** 64])


def big_factor(row, r):
    r.choice(row[2])[2] = r.choice([2 ** 62 + 1, -2 ** 62 - 1, 2 ** 62 - 1, 0, 2 ** 64 - 1])


def not_reduced(row, r):
    row[2] = [[t[0], t[1], 2 * t[2]] for t in row[2]]


def turned(row, r):
    row[2] = [[t[0], t[1], -t[2]] for t in row[2]]


def other_order(row, r):
    row[2].reverse()


def no_terms(row, r):
    row[2], row[1] = [], r.choice([-1, 0])


def other_variable(row, r):
    term = r.choice(row[2])
    term[0], term[1] = r.choice('cxpa'), r.choice([term[1], 0, 99, 255, 256, 2 ** 32])


BY_VALUE = [number_at_random, key_missing, key_more, other_part, other_version, other_format, format_besides, other_pieces, raised, other_name, other_text, twice, swapped, other_kind, dropped, less_of_it,
            *map(with_row, (too_big, big_factor, not_reduced, turned, other_order, no_terms, other_variable))]


def cut(text, r):
    return text[:r.randrange(len(text))]


def other_byte(text, r):
    at = r.randrange(len(text))
    return text[:at] + bytes([r.choice(b'"\\{}[],:01aE.- \t\r\x00\x80\xc3\xff')]) + text[at + r.randrange(2):]


def with_blanks(text, r):
    """The same value, written otherwise: with blanks, keys in another order, escapes."""
    value = json.loads(text)
    def turned_keys(v):
        if isinstance(v, dict):
            return {k: turned_keys(v[k]) for k in sorted(v, reverse=True)}
        return [turned_keys(x) for x in v] if isinstance(v, list) else v
    return json.dumps(turned_keys(value), indent=r.choice([None, 1, '\t']), ensure_ascii=r.random() < 0.5).encode() + r.choice([b'', b'\n', b' \r\n'])


def key_twice(text, r):
    """The version or a format number comes twice, or is written otherwise."""
    found = list(re.finditer(rb'"(pips|format)":([0-9]+)', text))
    if not found:
        return text
    m = r.choice(found + found[-1:] * 2)
    key, number = m.groups()
    forms = [b'"K":3,"K":N', b'"K":N,"K":3', b'"K":0,"K":N', b'"K":N,"K":N', b'"K":N,"K":1', b'"\\u00%02xX":N' % key[0], b'"K":Ne0', b'"K":-N', b'"K":0N', b'"K":N.0', b'"K":"N"', b'"K": N ']
    return text[:m.start()] + r.choice(forms).replace(b'K', key).replace(b'X', key[1:]).replace(b'N', number) + text[m.end():]


BY_TEXT = [cut, other_byte, with_blanks, key_twice]

ALONE = [b'', b'{}', b'[]', b'null', b'{"pips":7}', b'{"pips":7.0}', b'{"pips":-1}', b'{"pips":1}', b'7', b'"pips"', b'{"modules":[', b'{"pips":18446744073709551615}', b'{"pips":18446744073709551616}',
         b'[' * 127 + b']' * 127, b'[' * 128 + b']' * 128, b'1e400', b'\xef\xbb\xbf{}', b'"\\ud800"', b'{"pips":3,"x":"\xff"}',
         *[b'{"pips":%d,"a":' % version + b'[' * depth + b']' * depth + b'}' for version in (2, 3) for depth in (126, 127)],
         b'{"modules":[],"pips":1,"results":[]}', b'{"modules":[],"pips":2,"results":[]}', b'{"modules":[],"pips":1,"results":[{"kind":"MARKS","name":"P","value":[]}]}',
         b'{"modules":[],"pips":2,"results":[{"format":1,"kind":"MARKS","name":"P","value":[]}]}']

# what stands for the results of a base of version 2 that has nothing else: a format number that is not known goes before all other faults, but for texts that are no JSON
RESULTS = [b'[{"format":3,"kind":"MARKS"}]', b'[{"format":1,"kind":"MARKS"}]', b'[{"format":2,"kind":"MARKS"}]', b'[{"format":0,"kind":"MARKS"}]', b'[{"format":2,"kind":"PRINTED"}]', b'[{"format":3,"kind":"marks"}]', b'[{"format":3}]', b'[{"format":3,"kind":7}]',
           b'[{"format":3.0,"kind":"MARKS"}]', b'[{"format":3e0,"kind":"MARKS"}]', b'[{"format":18446744073709551615,"kind":"MARKS"}]', b'[{"format":18446744073709551616,"kind":"MARKS"}]',
           b'[{"format":-9223372036854775808,"kind":"MARKS"}]', b'[0,[],{},{"format":3,"kind":"MARKS","more":[]}]', b'[{"format":0,"kind":"MARKS"},{"format":2,"kind":"EFFECTS"}]', b'{"format":3,"kind":"MARKS"}',
           b'[[{"format":3,"kind":"MARKS"}]]', b'{"0":{"format":3,"kind":"MARKS"}}', b'[{"format":3,"format":2,"kind":"MARKS"}]', b'[{"format":2,"format":3,"kind":"MARKS"}]', b'[{"format":3,"kind":"MARKS"}', b'[{"kind":"MARKS","format":3},]']
ALONE += [b'{"pips":%d,"results":%s}' % (version, results) for version in (2, 1) for results in RESULTS] + [b'{"pips":3,"results":[{"format":0,"kind":"MARKS"}]}', b'{"results":[{"format":3,"kind":"MARKS"}]}']


def table(text, old):
    """A base with each number as its version, also one of version 1; and with each as the format number of its first result, and some as that of each other."""
    for data in (text, old):
        for number in NUMBERS:
            value = json.loads(data)
            with_number(value, 'pips', number)
            yield text_of(value)
    for place in range(len(json.loads(text)['results'])):
        for number in NUMBERS if place == 0 else (0, 1, 2, 3, 'missing'):
            value = json.loads(text)
            with_number(value['results'][place], 'format', number)
            yield text_of(value)


def text_of(value):
    return json.dumps(value, ensure_ascii=False, separators=(',', ':'), sort_keys=True).encode('utf-8', 'surrogatepass')


def damaged(texts, r):
    """Texts, each with what was done to it."""
    for damage in BY_VALUE:
        for text in r.sample(texts, min(len(texts), 13)):
            yield damage.__name__, text_of(damage(json.loads(text), r))
    for damage in BY_TEXT:
        for text in r.sample(texts, min(len(texts), 20)):
            yield damage.__name__, damage(text, r)


# ---- answers

def read_base(text):
    """The base of a text, without the results in older formats."""
    base = base_file.base_read(text, STAGE)
    base.results = [stored for stored in base.results if stored.value != base_file.OLD]
    return base


def answer(text, limit=None):
    try:
        base = read_base(text)
    except base_file.BadBase as e:
        return str(e.code).encode()
    if limit is None:
        return base_file.base_write(base, STAGE)
    kept = base_file.kept_text(base, limit, STAGE)
    return b'none' if kept is None else kept


def main(seeds=40):
    r = random.Random(4)
    bases = [base_of(text) for text in BY_HAND]
    others = [base for base in map(base_of, random_texts(seeds)) if base]
    texts = [base_file.base_write(base, STAGE) for base in bases]
    small = [with_some(base, r, stage) for base in bases + others for stage in (STAGE, VERSION_1)]
    small += [with_some(base, r, FORMATS_1) for base in (base_of(text, FORMATS_1) for text in BY_HAND) if base]
    cases = [('whole', text, None) for text in [*texts, in_version_1(bases[1]), *small]] + [('alone', text, None) for text in ALONE]
    cases += [('table', text, None) for text in table(texts[0], in_version_1(bases[0]))]
    cases += [(kind, text, None) for kind, text in damaged(small, r) if b'\n==' not in text and not text.startswith(b'==')]
    for text in [SMALLEST, *texts, in_version_1(bases[1])]:
        base = read_base(text)
        written = len(base_file.base_write(base, STAGE))
        bare = len(base_file.base_write(base_file.Base(base.modules, base.names, []), STAGE))
        cases += [('limit', text, limit) for limit in sorted({written, written - 1, bare, bare - 1})]
    seen = Counter()
    given, wanted = [], []
    for kind, text, limit in cases:
        said = answer(text, limit)
        seen[kind, said.decode() if said.isdigit() or said == b'none' else 'ok'] += 1
        given.append(text + b'\n==' + (b'' if limit is None else b' %d' % limit) + b'\n')
        wanted.append(said + b'\n')
    for key in sorted(seen):
        print(*key, seen[key])
    print(len(cases), 'cases,', sum(map(len, given)), 'and', sum(map(len, wanted)), 'bytes')
    write_cases('cases_bases', given, wanted)


if __name__ == '__main__':
    main(*map(int, sys.argv[1:]))
