#!/usr/bin/env python3
"""How many lines of definitions the contract of `run` reaches, by following names from `Runs` through imports. Imports, comments and blank lines are left out.

    python3 bench/believed.py                 the counts, and whether docs/DEFINITIONS.md has them; its status is 1 where it has others
    python3 bench/believed.py --write         also writes them there
    python3 bench/believed.py --files PART    the files of a part, with the lines of each that are reached, and from which definition each is first reached

A definition is reached where a definition that is reached names it. A name that is cut is counted, and what it says is not followed: so what a rule computes is data. Types of the code are counted by their declarations.
"""
import functools
import os
import re
import sys
from dataclasses import dataclass, field

TOP = os.path.dirname(os.path.dirname(os.path.abspath(__file__)))
PAGE = os.path.join(TOP, 'docs', 'DEFINITIONS.md')

# what a run does for a script, over a base, or for `--generate`
OTHER_JOBS = {('pips_top/Run', name) for name in ('Answers', 'Counts', 'Keeps', 'WorksOver', 'IsStale', 'IsBadBase', 'HasBase', 'LacksBase', 'LacksRoom', 'IsNotKept')} | {
    ('pips_top/Answer', name) for name in ('EndsAnswered', 'EndsAnsweredOver', 'EndsWrittenOver', 'EndsOver', 'FitAlone', 'IsOpened', 'LeavesFiles')} | {
    ('pips_top/Made', 'counted'), ('pips_top/Sample', 'sample_program'), ('pipsmake_base/Saved', 'texts_in'), ('pipsmake_db/AnswerTexts', 'texts_at_end'),
    ('session_texts/Commands', 'commands_of'), ('session_texts/Sources', 'source_modules')}
ANALYSES = {('pips_top/Shown', 'results_of_program'), ('pipsmake_meaning/ResultEntries', 'results_of_modules'), ('laws_marks/Said', 'reduced_in'),
            ('bound_check/Checked', 'checked_of')}
READER = {('pips_top/Reading', 'reading'), ('pips_top/Written', 'written'), ('laws_lines/Marks/Marked', 'ReadMarked'), ('laws_lines/Marks/ClaimsRead', 'ReadClaims'), ('pips_top/ClaimsRead', 'claims_shown'),
           ('pips_top/Shown', 'lines_for')}

# each part: where it begins, and what is data in it
PARTS = {
    'everything': ([('pips_top/Run', 'Runs')], set()),
    'a fresh run, with its analyses': ([('pips_top/Run', 'Runs')], OTHER_JOBS),
    'a fresh run': ([('pips_top/Run', 'Runs')], OTHER_JOBS | ANALYSES),
    'what is sound': ([('pips_top/Sound', 'IsSound')], ANALYSES | READER),
    'interleaved, with reader and printer': ([('pips_top/MarkedText', 'RunsInterleaved')], ANALYSES),
    'interleaved': ([('pips_top/MarkedText', 'RunsInterleaved')], ANALYSES | READER),
}

HEAD = re.compile(r'^(?:(?:abbrev|pub|unfoldable) )*(?:(record|data) )?(\S+) (?=:|\(|\{)')
SIGNATURE = re.compile(r'^(?:(?:abbrev|pub|unfoldable) )*(?:(?:record|data) \S+ |\S+ :( |$))')
CONSTRUCTOR = re.compile(r'^  (?:pub )?(\S+) : ')
BLOCK = re.compile(r'^((abbrev|pub|unfoldable) )*(module |mutual$)')
USE = re.compile(r'^(pub )?use ([\w.+-]+)(?:\.\{(.*)\})?(?: as (\S+))?$')
WORD = re.compile(r'[^\s(){}\[\],;λ|]+')


@dataclass
class Definition:
    lines: list = field(default_factory=list)
    words: set = field(default_factory=set)


@dataclass
class Module:
    crate: str
    place: tuple
    definitions: dict = field(default_factory=dict)
    constructors: dict = field(default_factory=dict)
    names: dict = field(default_factory=dict)
    aliases: dict = field(default_factory=dict)
    handed: dict = field(default_factory=dict)
    nodes: dict = field(default_factory=dict)

    @property
    def title(self):
        return '/'.join((self.crate, *self.place))


def words_of(line):
    return set(WORD.findall(line))


def blocks(lines):
    """The outermost blocks of lines: one that is not indented, and those under it."""
    block = []
    for line in lines:
        if block and not line.startswith(' '):
            yield block
            block = []
        block.append(line)
    if block:
        yield block


def put(module, lines, around=frozenset()):
    """Takes up the definitions in some lines: each with its clauses, which follow its signature."""
    current = None
    for block in blocks(lines):
        first = block[0]
        if BLOCK.match(first):
            put(module, [line[2:] for line in block[1:]], around | words_of(first))
            continue
        if first.startswith(('use ', 'pub use ', 'pub mod ', 'mod ', 'unfolding', 'infix')):
            continue
        if SIGNATURE.match(first):
            kind, name = HEAD.match(first).groups()
            current = module.definitions.setdefault(name, Definition(words=set(around)))
            if kind == 'data':
                module.constructors.update({found[1]: name for found in map(CONSTRUCTOR.match, block) if found})
        current.lines += block
        for line in block:
            current.words |= words_of(line)


def imported(module, lines):
    for line in lines:
        found = USE.match(line)
        if not found:
            continue
        public, path, names, alias = found.groups()
        if names is None:
            module.aliases[alias or path.rsplit('.', 1)[-1]] = path
            if public:
                module.nodes[alias or path.rsplit('.', 1)[-1]] = path
            continue
        for word in names.split(','):
            name, _, other = word.strip().partition(' as ')
            module.names[other or name] = (path, name)
            if public:
                module.handed[other or name] = (path, name)


@functools.cache
def module_at(crate, place):
    path = os.path.join(TOP, 'crates', crate, 'specs', *place) + '.antt'
    if not os.path.exists(path):
        return None
    with open(path, encoding='utf-8') as file:
        lines = [line.rstrip() for line in file if line.strip() and not line.lstrip().startswith('--')]
    module = Module(crate, place)
    imported(module, lines)
    put(module, lines)
    return module


@functools.cache
def resolved(path):
    """The module of a path: its crate and place, through what crates hand on."""
    parts = path.split('.')
    if parts[0] != 'Rattle' or len(parts) < 3 or parts[2] != 'specs' or not os.path.isdir(os.path.join(TOP, 'crates', parts[1])):
        return None
    crate, place, rest = parts[1], (), parts[3:]
    while rest:
        if rest[0] == 'declared':
            return crate, ('declared', *rest[1:])
        node = module_at(crate, place or ('Lib',))
        if node is not None and rest[0] in node.nodes:
            return resolved('.'.join((node.nodes[rest[0]], *rest[1:])))
        place, rest = (*place, rest[0]), rest[1:]
    return crate, place


@functools.cache
def sources(crate):
    """The declarations of types in the code of a crate, by their names."""
    found = {}
    for folder, _, files in os.walk(os.path.join(TOP, 'crates', crate, 'src')):
        for name in files:
            with open(os.path.join(folder, name), encoding='utf-8') as file:
                text = file.read()
            for it in re.finditer(r'(?m)^pub(?:\(crate\))? (?:struct|enum) (\w+)[^{;]*(?:\{(?:.|\n)*?^\}|;)', text):
                found[it[1]] = [line for line in it[0].splitlines() if line.strip() and not line.lstrip().startswith(('//', '#['))]
    return found


def definition_of(path, name):
    """Where the definition of a name stands that a path gives: a module and the name there, or a type of the code. None of the kit."""
    at = resolved(path)
    if at is None:
        return None
    crate, place = at
    if place[:1] == ('declared',):
        types = sources(crate)
        return next(((f'{crate}/src', part) for part in (name, *reversed(place)) if part in types), None)
    module = module_at(crate, place)
    if module is None:
        return None
    name = module.constructors.get(name, name)
    if name in module.definitions:
        return module.title, name
    if name in module.handed:
        return definition_of(*module.handed[name])
    return None


def named_by(title, name):
    """The definitions that one names."""
    if title.endswith('/src'):
        crate = title[:-4]
        types = sources(crate)
        words = set(re.findall(r'\w+', ' '.join(types[name])))
        return [(title, word) for word in sorted(words & set(types) - {name})]
    crate, *place = title.split('/')
    module = module_at(crate, tuple(place))
    words = module.definitions[name].words
    pieces = words | {word.split('.')[0] for word in words}
    found = [(title, it) for it in module.definitions if it != name and is_named(it, pieces)]
    found += [(title, data) for it, data in module.constructors.items() if data != name and it in pieces]
    found += [definition_of(*module.names[it]) for it in module.names if is_named(it, pieces)]
    for word in words:
        alias, _, rest = word.partition('.')
        if rest and alias in module.aliases:
            found.append(definition_of(module.aliases[alias], rest.split('.')[0]))
    return sorted({it for it in found if it is not None})


def is_named(name, words):
    """Whether these words have a name, or all words of an operator."""
    parts = [part for part in name.split('◌') if part]
    return bool(parts) and all(part in words for part in parts)


def reached(starts, cut):
    """The definitions that are reached, each with the one that first names it."""
    found = {it: None for it in starts}
    left = list(starts)
    while left:
        it = left.pop(0)
        if it in cut:
            continue
        for other in named_by(*it):
            if other not in found:
                found[other] = it
                left.append(other)
    return found


def lines_of(title, name):
    if title.endswith('/src'):
        return len(sources(title[:-4])[name])
    crate, *place = title.split('/')
    return len(module_at(crate, tuple(place)).definitions[name].lines)


def by_file(found):
    files = {}
    for it in found:
        files.setdefault(it[0], []).append(it)
    return files


def counts(part):
    """The lines of definitions, and of declarations of types in the code; how many of both there are, and in how many files."""
    found = reached(*PARTS[part])
    types = [it for it in found if it[0].endswith('/src')]
    of_types = sum(lines_of(*it) for it in types)
    return sum(lines_of(*it) for it in found) - of_types, of_types, len(found) - len(types), len(by_file([it for it in found if it not in types]))


def row(part):
    lines, of_types, definitions, files = counts(part)
    return f'| {part} | {lines:,} | {definitions:,} | {files} | {of_types} |'


def with_numbers(page):
    """The page with the counts in its rows."""
    for part in PARTS:
        page = re.sub(rf'(?m)^\| {re.escape(part)} \| [\d,]+ \| [\d,]+ \| \d+ \| \d+ \|$', row(part), page)
    return page


def show_files(part):
    found = reached(*PARTS[part])
    for title, its in sorted(by_file(found).items(), key=lambda it: -sum(lines_of(*one) for one in it[1])):
        first = found[its[0]]
        print(f'{sum(lines_of(*it) for it in its):6} {title}: {", ".join(name for _, name in its)}' + (f'   (by {first[0]} {first[1]})' if first else ''))


def main(words):
    if words[:1] == ['--files']:
        show_files(' '.join(words[1:]))
        return 0
    missing = [it for starts, cut in PARTS.values() for it in (*starts, *cut) if module_at(it[0].split('/')[0], tuple(it[0].split('/')[1:])) is None
               or it[1] not in module_at(it[0].split('/')[0], tuple(it[0].split('/')[1:])).definitions]
    for it in sorted(set(missing)):
        print(f'no such definition: {it[0]} {it[1]}')
    for part in PARTS:
        print(row(part))
    with open(PAGE, encoding='utf-8') as file:
        page = file.read()
    wanted = with_numbers(page)
    if wanted != page and '--write' in words:
        with open(PAGE, 'w', encoding='utf-8') as file:
            file.write(wanted)
    elif wanted != page:
        print('docs/DEFINITIONS.md has other numbers: --write')
    lacking = [part for part in PARTS if f'| {part} | ' not in page]
    for part in lacking:
        print(f'docs/DEFINITIONS.md lacks: {part}')
    return bool(missing or lacking or (wanted != page and '--write' not in words))


if __name__ == '__main__':
    sys.exit(main(sys.argv[1:]))
