#!/usr/bin/env python3
"""Makes the cases of crates/cases_programs: its `stdin`, and its `stdout` by the answers of the reference.

    python3 bench/cases_programs.py [loops FIRST LAST FOLDER]

What the programs by hand say of their answers, and what follows for pairs of faults, must stand in them, or it stops. Of the effects and the analyses of
tracked cells and loops programs that are refused are left out. With the kind `loops` the random programs are those of these seeds, and their cases alone are
written to a folder.
"""
import os
import sys
from collections import Counter
from types import SimpleNamespace

from effect_programs import effect_programs
from graph_programs import graph_programs
from loop_programs import loop_programs
from reference import STAGE, load, write_cases
from region_answers import with_ins
from scalar_programs import scalar_programs
from storage_programs import BY_HAND, in_pairs, random_programs, text_of as storage_text

EFFECTS = 600
# the size of what is stored of the analyses of tracked cells
SCALARS = 140_000
# the number of loops of which conflicts are asked for
LOOPS = 500

layout, loops, model, pipeline, printer, read, reader, regions, scalars, stages = map(load, ['layout', 'loops', 'model', 'pipeline', 'printer', 'read', 'reader', 'regions', 'scalars', 'stages'])


# ---- texts

def line(text):
    label, _, rest = text.partition(' ')
    return f'{label:<5} {rest}\n' if label.isdigit() else f'      {text}\n'


def text_of(statements):
    """Statements as lines of 72 columns; a text as it is."""
    if isinstance(statements, str):
        return statements
    out = []
    for statement in statements:
        whole = line(statement).rstrip('\n')
        out.append(whole[:72] + '\n')
        out += ['     &' + whole[k:k + 66] + '\n' for k in range(72, len(whole), 66)]
    return ''.join(out)


# ---- symbols

PLACES = {'Local': lambda p: f'L{p[1]}+{p[2]}', 'Dummy': lambda p: f'D{p[1]}', 'Block': lambda p: f'/{p[1]}/+{p[2]}', 'Constant': lambda p: f'={p[1]}'}


def symbol_lines(symbols):
    """A line for each symbol, and one for all pairs that overlap."""
    def runs(s):
        return ''.join(f' {offset}:{count}*{value}' for offset, count, value in s.initial)
    lines = [f'{s.name} {s.scalar} {len(s.bounds)} {layout.size(symbols, s) or 0} {PLACES[s.place[0]](s.place)} {str(s.saved).lower()}{runs(s)}' for s in symbols]
    numbers = range(1, len(symbols) + 1)
    return lines + [''.join(f'{m}~{n} ' for m in numbers for n in numbers if layout.overlaps(symbols, ('Own', m), ('Own', n)))]


def module_lines(parsed):
    try:
        return ['module'] + symbol_lines(layout.symbols(parsed))
    except model.Refused as r:
        return ['module', f'refused {r.line} {r.code}']


def storage_lines(text):
    try:
        modules = reader.read_modules(text, True)
    except model.Refused as r:
        return [f'read {r.line} {r.code}']
    return [part for parsed in modules for part in module_lines(parsed)]


# ---- graphs

def linked_lines(parsed, tables):
    graph = layout.link(parsed, tables, stages.most_modules(STAGE))
    yield ' '.join(['order'] + list(graph.order))
    for edge in graph.edges:
        yield f'call {edge.caller} {edge.at} {edge.callee}'
    for block in graph.blocks:
        yield f'block /{block.name}/ {block.size}'
    for unit in graph.untracked:
        yield f'untracked /{unit.block}/+{unit.offset}'
    for p, table in zip(parsed, tables):
        cells = layout.tracked_cells(model.View(p.module, table, graph))
        yield ' '.join([f'cells {p.module.name}:'] + [s.name for n, s in enumerate(table, 1) if n in cells])


def graph_lines(text):
    try:
        parsed = reader.read_modules(text, True)
    except model.Refused as r:
        return [f'read {r.line} {r.code}']
    try:
        tables = [layout.symbols(p) for p in parsed]
    except model.Refused as r:
        return [f'symbols {r.line} {r.code}']
    try:
        return list(linked_lines(parsed, tables))
    except model.Refused as r:
        return ['link 50' if r.code == 50 else f'link {r.module} {r.line} {r.code}']


# ---- effects

def effect_line(of, symbols, effect):
    def names(vs):
        return ''.join(' ' + scalars.variable_text(symbols, v) for v in vs)
    flags = (' io' if effect.io else '') + (' stops' if effect.stops else '')
    return f'{of} reads{names(effect.reads)} writes{names(effect.writes)}{flags}'


def effect_lines(text):
    program = read.read(text, functions=True)
    views, known = pipeline.views(program), {}
    for name in program.graph.order:
        view = views[name]
        yield f'module {name}'
        for stmt in scalars.all_in(view.module.body):
            yield effect_line(f'{stmt.id} own', view.symbols, scalars.proper(view, stmt))
        results = scalars.cumulated(view, known)
        for number, effect in results.at.items():
            yield effect_line(f'{number} all', view.symbols, effect)
        yield effect_line('summary', view.symbols, results.summary)
        known[name] = (view.symbols, results.summary)


# ---- tracked cells

def rows(symbols, s):
    return '{' + ', '.join(printer.row_text(symbols, row) for row in s.rows) + '}' + (' WEAK' if s.weak else '')


def change(symbols, t):
    return ''.join(symbols[c - 1].name + ' ' for c in t.cells) + ''.join(f'/{u.block}/+{u.offset} ' for u in t.foreign) + rows(symbols, t.system)


def scalar_lines(text):
    program = read.read(text, functions=True)
    views, found = pipeline.views(program), pipeline.analyse_scalars(program)
    for name in reversed(program.graph.order):
        view, symbols = views[name], views[name].symbols
        own, holds = found[name]['transformers'], found[name]['preconditions']
        yield f'module {name}'
        yield f'P {rows(symbols, holds.summary)}'
        yield f'T {change(symbols, own.summary)}'
        for number in own.at:
            yield f'{number} P {rows(symbols, holds.at[number])}'
            yield f'{number} T {change(symbols, own.at[number])}'


# ---- conflicts of loops

def conflict_line(known, number, variable, kinds):
    answer = loops.conflict(known, number, variable, kinds)
    return ' -' if answer == ('None',) else f' {rows(known.view.symbols, answer[1])}'


def private_word(known, number, variable, outs):
    """Whether it may be private where these regions stand for OUT of the DO: the first answer that is not Yes, of their READ and their WRITE."""
    def answer(kind):
        out = [regions.changed_region(r, kind='OUT') for r in outs if r.kind == kind]
        return loops.may_be_private(SimpleNamespace(**vars(known), outs=SimpleNamespace(at={number: out})), number, variable)
    return next((word for word in map(answer, ('READ', 'WRITE')) if word != 'Yes'), 'Yes').lower()


def loop_answers(known, number):
    """Of each variable that the body of a DO writes."""
    for r in loops.body_writes(known, number):
        private = ' '.join(private_word(known, number, r.variable, outs) for outs in ([], known.regions.at[number]))
        yield f'{number} {scalars.variable_text(known.view.symbols, r.variable)} {private}'
        yield from (conflict_line(known, number, r.variable, kinds) for kinds in loops.KINDS)


def loop_lines(text):
    for view, found, sets, ins in with_ins(text):
        yield f'module {view.module.name}'
        known = SimpleNamespace(view=view, regions=sets, ins=ins, **found)
        for stmt in scalars.all_in(view.module.body):
            if stmt.what[0] == 'Do':
                yield from loop_answers(known, stmt.id)


# ---- cases

class Cases:
    def __init__(self):
        self.given, self.wanted, self.counts = [], [], Counter()

    def add(self, kind, text, lines, want):
        for part in want:
            if part not in lines:
                sys.exit(f'{kind}: {part} is not among {lines} of\n{text}')
        self.given.append(f'{text}== {kind}\n')
        self.wanted.append(''.join(part + '\n' for part in lines) + '==\n')
        self.counts[kind] += 1

    def add_storage(self):
        for name, statements, want in BY_HAND + in_pairs() + random_programs(150):
            text = storage_text(statements)
            self.add(f'storage {name}', text, storage_lines(text), want)

    def add_graphs(self):
        for text, want in graph_programs():
            lines = graph_lines(text)
            if want is not None and want != lines:
                sys.exit(f'{want}, and not {lines}, of\n{text}')
            self.add('graph', text, lines, [])

    def add_accepted(self, kind, statements, answer, want):
        """Adds a program that is accepted. Its size."""
        text = text_of(statements)
        try:
            lines = list(answer(text))
        except model.Refused:
            return 0
        self.add(kind, text, lines, want)
        return len(self.given[-1]) + len(self.wanted[-1])

    def add_effects(self):
        programs = effect_programs(10 * EFFECTS)
        while self.counts['effects'] < EFFECTS:
            statements, want = next(programs)
            self.add_accepted('effects', statements, effect_lines, want)

    def add_scalars(self):
        size, programs = 0, scalar_programs()
        while size < SCALARS:
            statements, want = next(programs)
            size += self.add_accepted('scalars', statements, scalar_lines, want)

    def add_loops(self, seeds, most):
        """Programs with loops, until there are answers of that many loops."""
        count = 0
        for statements, want in loop_programs(seeds):
            before = len(self.wanted)
            self.add_accepted('loops', statements, loop_lines, want)
            for answer in self.wanted[before:]:
                count += loops_in(answer)
            if count >= most:
                break


def loops_in(answer):
    """The number of loops of which something is answered."""
    lines = [line.split() for line in answer.split('\n')]
    modules = [k for k, words in enumerate(lines) if words[:1] == ['module']] + [len(lines)]
    return sum(len({words[0] for words in lines[k:l] if words and words[0].isdigit()}) for k, l in zip(modules, modules[1:]))


def write_loops(first, last, folder):
    cases = Cases()
    cases.add_loops(range(first, last), 1 << 30)
    for name, texts in (('stdin', cases.given), ('stdout', cases.wanted)):
        with open(os.path.join(folder, name), 'wb') as file:
            file.write(''.join(texts).encode('latin-1'))
    print(len(cases.given))


def main():
    sys.setrecursionlimit(1_000_000)
    if len(sys.argv) > 1:
        write_loops(int(sys.argv[2]), int(sys.argv[3]), sys.argv[4])
        return
    cases = Cases()
    cases.add_storage()
    cases.add_graphs()
    cases.add_effects()
    cases.add_scalars()
    cases.add_loops(range(1_000, 9_000), LOOPS)
    write_cases('cases_programs', cases.given, cases.wanted)
    counts = Counter(kind.split()[0] for kind in cases.counts.elements())
    print(dict(counts), sum(map(len, cases.given)), sum(map(len, cases.wanted)))


if __name__ == '__main__':
    main()
