#!/usr/bin/env python3
"""Compares the built program with the reference implementation on random texts: the exit number, and each byte on out and on err. What is
written is given to the built program again, with the same words, and has to come out unchanged.

    python3 bench/agreement.py [--statements] [--damaged] [--once] [--reductions] [--bounds] [--from SEED] COUNT [PATH_TO_PIPS [PROFILE..]]

The texts are those of reference/programs.py, of each of its profiles. Half of them are damaged at one place or two. With profiles, which are
taken in turn, no text is damaged, and each is written by `--show bare`, `why` and `all`; with `--damaged` each is damaged, and written by one of them. The profile `forms` is that of bench/programs.py,
with functions and DO WHILE: small texts, a share of which is refused. With `--statements` what is read, refused and written is compared alone, without the lines of analyses, which takes the reference
much less time. With `--reductions`, `--bounds` or both each is written with each of these words, and with both, too. With `--once` no text is damaged, and each is written by one of bare, why and all. Prints how many texts were accepted, and by which codes the others were refused.
The texts that differ are written to the folder for temporary files.
"""
import argparse
import itertools
import os
import random
import re
import subprocess
import sys
import tempfile
from collections import Counter

import reference
from measure import binary_of
from programs import Maker


def modules_of(lines):
    """The lines of each module."""
    parts = [[]]
    for text in lines:
        parts[-1].append(text)
        if text.strip() == 'END':
            parts.append([])
    return [part for part in parts if part]


def line_is_dropped(pick, lines):
    del lines[pick.randrange(len(lines))]


def line_comes_twice(pick, lines):
    at = pick.randrange(len(lines))
    lines.insert(at, lines[at])


def lines_are_swapped(pick, lines):
    a, b = pick.randrange(len(lines)), pick.randrange(len(lines))
    lines[a], lines[b] = lines[b], lines[a]


def character_is_changed(pick, lines):
    at = pick.randrange(len(lines))
    text = lines[at]
    place = pick.randrange(len(text)) if text else 0
    lines[at] = text[:place] + pick.choice('AIX1(),=*.&\t') + text[place + 1:]


def module_is_dropped(pick, lines):
    parts = modules_of(lines)
    del parts[pick.randrange(len(parts))]
    lines[:] = [text for part in parts for text in part] or ['      END']


def module_comes_twice(pick, lines):
    parts = modules_of(lines)
    parts.insert(pick.randrange(len(parts) + 1), pick.choice(parts))
    lines[:] = [text for part in parts for text in part]


def modules_change_places(pick, lines):
    parts = modules_of(lines)
    pick.shuffle(parts)
    lines[:] = [text for part in parts for text in part]


def program_is_added(pick, lines):
    lines += ['      PROGRAM Q', '      END']


def many_modules_are_added(pick, lines):
    for k in range(pick.choice([252, 253, 254, 255, 256])):
        lines += [f'      SUBROUTINE MANY{k}', '      END']


def call_is_changed(pick, lines):
    """The callee or the arguments of a CALL; where there is none, one is added behind a statement."""
    calls = [k for k, text in enumerate(lines) if re.search(r'CALL \w+', text)]
    if not calls:
        lines.insert(pick.randrange(len(lines)), f'      CALL {pick.choice(["S1", "S2", "NONE", "S1(1)"])}')
        return
    at = pick.choice(calls)
    text = lines[at]
    kind = pick.randrange(6)
    if kind == 0:
        text = re.sub(r'CALL \w+', f'CALL {pick.choice(["S1", "S2", "S3", "NONE"])}', text)
    elif kind == 1:
        text = re.sub(r'\(.*\)', '', text)
    elif kind == 2:
        text = re.sub(r'\)$', ',1)', text) if text.endswith(')') else text + '(1)'
    elif kind == 3:
        text = re.sub(r'\([^(),]*', '(.TRUE.', text, count=1)
    elif kind == 4:
        text = re.sub(r'(CALL \w+)\((\w+)\(', r'\1((\2)(', text)
    else:
        text = re.sub(r'(\(|,)\w+(,|\)$)', r'\1 2 \2', text, count=1)
    lines[at] = text


def call_is_added(pick, lines):
    """A CALL before the END of a module, of one of the modules."""
    names = re.findall(r'^ *SUBROUTINE (\w+)', '\n'.join(lines), re.M) or ['S1']
    ends = [k for k, text in enumerate(lines) if text.strip() == 'END']
    if ends:
        lines.insert(pick.choice(ends), f'      CALL {pick.choice(names)}{pick.choice(["", "(1)", "(1,2)"])}')


def header_of(part):
    """Which line of a module is its SUBROUTINE or FUNCTION, its name and its dummies."""
    for k, text in enumerate(part):
        found = re.match(r' *(?:SUBROUTINE|(?:INTEGER |LOGICAL )?FUNCTION) (\w+)(?:\((.*)\))?$', text)
        if found:
            return k, found.group(1), [x.strip() for x in (found.group(2) or '').split(',') if x.strip()]
    return None


def fitting_call_is_added(pick, lines):
    """A CALL or a reference that fits, before the END of a subroutine or function: of itself by its own dummies, or of another."""
    parts = modules_of(lines)
    headed = [part for part in parts if header_of(part)]
    if not headed:
        return
    caller, callee = pick.choice(headed), pick.choice(headed)
    at, name, dummies = header_of(callee)
    actuals = dummies
    if caller is not callee:
        arrays = re.findall(r'(\w+)\(', '\n'.join(callee[at + 1:at + 9]))
        actuals = ['IQ7' if dummy in arrays else '1' for dummy in dummies]
        caller.insert(header_of(caller)[0] + 1, '      INTEGER IQ7(99)')
    start = 'KQ8=' if 'FUNCTION' in callee[at] else 'CALL '
    caller.insert(len(caller) - 1, f'      {start}{name}({",".join(actuals)})')
    lines[:] = [text for part in parts for text in part]


def functions_of(lines):
    """The names of the functions of a text; where it has none, some name."""
    return re.findall(r'^ *(?:INTEGER |LOGICAL )?FUNCTION (\w+)', '\n'.join(lines), re.M) or ['NF1']


def title_is_changed(pick, lines):
    """Another word, type, name or list of dummies of a function or a subroutine."""
    titles = [k for k, text in enumerate(lines) if re.match(r' *(INTEGER |LOGICAL )?(FUNCTION|SUBROUTINE) \w+', text)]
    if not titles:
        return
    at = pick.choice(titles)
    title, name, dummies = re.match(r' *((?:INTEGER |LOGICAL )?(?:FUNCTION|SUBROUTINE)) (\w+)(.*)', lines[at]).groups()
    kind = pick.randrange(4)
    if kind < 2:
        title = pick.choice(['FUNCTION', 'INTEGER FUNCTION', 'LOGICAL FUNCTION', 'SUBROUTINE', 'REAL FUNCTION', 'INTEGER*4 FUNCTION'])
    elif kind == 2:
        dummies = pick.choice(['', '()', '(K1)', '(I,J)', f'({name})', '(1)', dummies + ','])
    else:
        name = pick.choice(functions_of(lines) + ['S1', 'F', 'MAX', 'LF'])
    lines[at] = f'      {title} {name}{dummies}'


def reference_is_changed(pick, lines):
    """Other arguments of a reference, another right side or left side."""
    found = [(k, name) for name in functions_of(lines) for k, text in enumerate(lines) if re.search(rf'= *{name}\(.*\)$', text)]
    if not found:
        return
    at, name = pick.choice(found)
    left, actuals = re.match(rf'(.*)= *{name}\((.*)\)$', lines[at]).groups()
    right = pick.choice([f'{name}()', name, f'{name}({actuals},1)', f'{name}({actuals})+1', f'({name}({actuals}))', f'-{name}({actuals})', f'{name}(.TRUE.)', f'{name}(1)', f'{name}({name})',
                         f'{name}({name}({actuals}))', f'{name} ( {actuals} )', f'{name}()+1', f'{name}({actuals})'])
    left = pick.choice([left, left, left, '      LQ7(1)', f'      {name}', '10    K', '      IF (K.GT.1) K', '      X', '      IF (K.GT.1) LQ7(K)'])
    lines[at] = f'{left}={right}'


SPECIFIED = ['INTEGER {}', 'LOGICAL {}', 'INTEGER {}(3)', 'DIMENSION {}(2)', 'COMMON {}', 'COMMON /{}/ KQ7', 'COMMON KQ8,{}(2)', 'SAVE {}', 'SAVE /{}/', 'DATA {}/1/', 'EQUIVALENCE ({},KQ7)', 'PARAMETER ({}=1)',
             'INTEGER {0},KQ7', 'LOGICAL LQ7(2),{}', 'INTEGER KQ7({})', 'IMPLICIT LOGICAL(N)', 'IMPLICIT NONE']
EXECUTED = ['{}=1', '{}(1)=2', 'KQ7={}', 'KQ7={}(1)', 'KQ7={}()', 'KQ7={}(1,2)', 'KQ7={}(1)+1', 'IF (KQ7.EQ.1) KQ7={}(1)', 'IF (KQ7.EQ.1) KQ7={}()', 'CALL {}', 'CALL {}(1)', 'CALL S1({})', 'PRINT *,{}', 'PRINT *,{}(1)', 'PRINT *,{}()',
            'READ *,{}', 'DO {}=1,2', 'IF ({}(1).GT.2) KQ7=1', 'DO WHILE ({}(1).LT.3)', 'KQ7(1)={}(2)', 'KQ7=MAX({}(1),2)', 'KQ7=MAX()', 'KQ7=MOD(1,{}())', 'ELSE IF ({}.EQ.1) THEN', 'STOP', 'RETURN']


def name_is_used(pick, lines):
    """The name of a function at another place of a module: behind its title, or before its END."""
    parts = modules_of(lines)
    part, name = pick.choice(parts), pick.choice(functions_of(lines))
    if pick.random() < .5:
        titled = re.match(r' *(PROGRAM|SUBROUTINE|(INTEGER |LOGICAL )?FUNCTION)', part[0])
        part.insert(1 if titled else 0, '      ' + pick.choice(SPECIFIED).format(name))
    else:
        part.insert(pick.choice([len(part) - 1, pick.randrange(len(part))]), '      ' + pick.choice(EXECUTED).format(name))
    lines[:] = [text for part in parts for text in part]


def function_is_added(pick, lines):
    """Another function, and a reference of it before the END of a module."""
    call_is_added(pick, lines)
    title = pick.choice(['FUNCTION NF9(K)', 'INTEGER FUNCTION NF9(K)', 'LOGICAL FUNCTION NF9(K)', 'FUNCTION NF9()', 'FUNCTION F9(K)', 'INTEGER FUNCTION F9()', 'SUBROUTINE NF9(K)'])
    ends = [k for k, text in enumerate(lines) if text.strip() == 'END']
    if ends:
        right = pick.choice(['NF9(1)', 'NF9(2)', 'NF9()', 'F9(3)', 'F9()', 'NF9(.TRUE.)', 'NF9(KQ9)'])
        lines.insert(pick.choice(ends), '      ' + pick.choice(['KQ9=', 'KQ9=', 'IF (KQ9.LT.2) KQ9=', 'LQ7=', 'KQ9 = 1+']) + right)
    lines += ['      ' + title, '      ' + pick.choice(['NF9=1', 'F9=1', 'NF9=K+1', 'NF9=.TRUE.', 'CALL S1', 'RETURN', 'K=NF9(1)', 'READ *,NF9']), '      END']


WHILES = ['DO WHILE ({})', 'DOWHILE({})', 'D O W H I L E ({})', 'DO 7777 WHILE ({})', 'DO 7777, WHILE({})', 'DO7777WHILE({})', 'DO , WHILE ({})', 'DO WHILE {}', 'DO WHILE (({})', 'DO WHILE ({}) ,I', 'DO WHILE ()', 'DO WHILE ({})=3',
          'DO 100000 WHILE ({})', 'DO WHILE (1)', 'DO 0 WHILE ({})', 'WHILE ({})', 'DO WHILE ({}) THEN', 'IF (K.EQ.1) DO WHILE ({})']


def while_is_changed(pick, lines):
    """Another beginning of a DO WHILE."""
    found = [(k, m) for k, m in ((k, re.match(r' *DO WHILE \((.*)\)$', text)) for k, text in enumerate(lines)) if m]
    if found:
        at, m = pick.choice(found)
        lines[at] = '      ' + pick.choice(WHILES).format(m.group(1))


def while_is_added(pick, lines):
    """A DO WHILE around some lines of a module."""
    parts = modules_of(lines)
    part = pick.choice(parts)
    last = pick.randrange(len(part))
    first = pick.randrange(last + 1)
    end = pick.choice(['      END DO', '      ENDDO', '7777  CONTINUE', '7777  K=1', '7777  END DO', '7777  IF (K.EQ.1) K=2', '7777  RETURN'])
    opening = pick.choice(WHILES if pick.random() < .2 else WHILES[3:6] if end[0] == '7' else WHILES[:3])
    part.insert(last, end)
    part.insert(first, '      ' + opening.format(pick.choice(['K.LT.5', '.TRUE.', 'KQ7.EQ.2.OR.K.LT.3', 'K', 'LQ7'])))
    lines[:] = [text for part in parts for text in part]


def jump_is_added(pick, lines):
    label = pick.choice([10, 20, 30, 7777, 99999, 100000, 100001, 100002, 100003, 100007])
    lines.insert(pick.randrange(len(lines)), f'      {pick.choice(["GO TO ", "GOTO", "IF (K.EQ.1) GO TO "])}{label}')


DAMAGES = [
    title_is_changed, title_is_changed, reference_is_changed, reference_is_changed, name_is_used, name_is_used, name_is_used, function_is_added, while_is_changed, while_is_added, while_is_added, jump_is_added,
    line_is_dropped, line_comes_twice, lines_are_swapped, character_is_changed, module_is_dropped, module_comes_twice, modules_change_places,
    program_is_added, many_modules_are_added, call_is_changed, call_is_changed, call_is_changed, call_is_added, call_is_added,
    fitting_call_is_added, fitting_call_is_added, fitting_call_is_added,
]


SHOWS = ('bare', 'why', 'all')
# words that add lines or clauses
FLAGS = ('--reductions', '--bounds')
# what they add
WORDS = {b'REDUCTION(': 'a REDUCTION clause', b'C> SAFE ': 'a SAFE line', b'C> CHECK ': 'a CHECK line'}


def made(programs, seed, profile):
    """A text of a profile."""
    return Maker(f'functions {seed}', True).program() if profile == 'forms' else programs.make(seed, profile)[0]


def damaged_texts(programs, seeds, profiles, damages):
    """Words and a text, damaged as often as one of `damages` says."""
    pick = random.Random(f'{seeds} {damages}')
    for seed in seeds:
        lines = made(programs, seed, profiles[seed % len(profiles)]).split('\n')[:-1]
        for _ in range(pick.choice(damages)):
            if lines:
                pick.choice(DAMAGES)(pick, lines)
        yield ['--show', pick.choice(SHOWS)], '\n'.join(lines) + '\n'


def whole_texts(programs, seeds, profiles, shows):
    """The same of these profiles, undamaged, each text by each of `shows`."""
    for seed in seeds:
        text = made(programs, seed, profiles[seed % len(profiles)])
        for show in shows:
            yield ['--show', show], text


def given_texts(programs, options):
    """Words and a text, by the words of the script."""
    seeds = range(options.first, options.first + options.count)
    if options.once:
        texts = (text for seed in seeds for text in whole_texts(programs, [seed], options.profiles or sorted(programs.PROFILES), [SHOWS[seed // 7 % len(SHOWS)]]))
    elif options.damaged or not options.profiles:
        texts = damaged_texts(programs, seeds, options.profiles or sorted(programs.PROFILES), [1, 1, 1, 2, 3] if options.damaged else [0, 0, 0, 1, 1, 2])
    else:
        texts = whole_texts(programs, seeds, options.profiles, SHOWS[:1] if options.statements else SHOWS)
    for words, text in texts:
        for count in range(len(options.flags) + 1):
            for flags in itertools.combinations(options.flags, count):
                yield [*words, *flags], text


def read_and_written(words, text):
    """What the reference answers without analyses: the statements of the text, or its refusal."""
    pips, stages = reference.load('pips'), reference.load('stages')
    try:
        program = reference.load('read').read(text, stages.most_modules(reference.STAGE), True)
    except pips.Refused as e:
        return 1, b'', reference.as_bytes(pips.refused(e.line, e.code, e.keyword).line) + b'\n'
    return 0, reference.as_bytes(''.join(pips.printer.plain(p.places, p.module) for p in program.parsed)), b''


def statements_of(out):
    """A text without the lines of directives."""
    return b''.join(line for line in out.splitlines(keepends=True) if not line.startswith(b'C$OMP'))


def answer(binary, place, words, text):
    path = os.path.join(place, 'p.f')
    with open(path, 'wb') as f:
        f.write(text)
    done = subprocess.run([binary, *words, 'p.f'], cwd=place, stdout=subprocess.PIPE, stderr=subprocess.PIPE)
    return done.returncode, done.stdout, done.stderr


def differs(binary, place, words, text, wanted):
    """Whether the program answers otherwise, or writes what is written otherwise."""
    if answer(binary, place, words, text.encode('latin-1')) != wanted:
        return True
    return wanted[0] == 0 and answer(binary, place, words, wanted[1]) != wanted


def writes_otherwise(binary, place, words, text, wanted):
    """The same of the statements alone. What is written with directives has to come out unchanged."""
    got = answer(binary, place, words, text.encode('latin-1'))
    if (got[0], statements_of(got[1]), got[2]) != wanted:
        return True
    return wanted[0] == 0 and answer(binary, place, words, got[1]) != got


def lines_with(out):
    """What of WORDS is in an answer."""
    return [word for word in WORDS if word in out]


def options_of(words):
    parser = argparse.ArgumentParser(usage=__doc__)
    parser.add_argument('--statements', action='store_true')
    parser.add_argument('--damaged', action='store_true')
    parser.add_argument('--once', action='store_true')
    for flag in FLAGS:
        parser.add_argument(flag, action='append_const', const=flag, dest='flags', default=[])
    parser.add_argument('--from', type=int, default=0, dest='first')
    parser.add_argument('count', type=int)
    parser.add_argument('binary', nargs='*')
    options = parser.parse_args(words)
    options.binary, options.profiles = binary_of(options.binary[:1]), options.binary[1:]
    return options


def main(words):
    options = options_of(words)
    programs, codes, differing, counts = reference.load('programs'), Counter(), 0, Counter()
    wanted_of, is_other = (read_and_written, writes_otherwise) if options.statements else (reference.Held().answer, differs)
    with tempfile.TemporaryDirectory() as place:
        for number, (words, text) in enumerate(given_texts(programs, options)):
            words = ['--show', 'bare'] if options.statements else words
            wanted = wanted_of(words, text)
            status = wanted[0]
            counts.update(lines_with(wanted[1]))
            codes[int(wanted[2].split()[3]) if status == 1 else f'status {status}' if status else 'accepted'] += 1
            if is_other(options.binary, place, words, text, wanted):
                differing += 1
                path = os.path.join(tempfile.gettempdir(), f'differs-{options.first + number}.f')
                with open(path, 'wb') as f:
                    f.write(text.encode('latin-1'))
                print(f'differs: {path} {" ".join(words)}', flush=True)
    answers = ', '.join(f'{counts[word]} answers with {name}' for word, name in WORDS.items())
    print(f'{options.count} texts, {differing} differ, {answers}; ' + ', '.join(f'{code}: {codes[code]}' for code in sorted(codes, key=str)))
    return differing > 0


if __name__ == '__main__':
    sys.exit(main(sys.argv[1:]))
