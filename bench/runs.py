#!/usr/bin/env python3
"""Runs the small programs of bench/runs by the reference implementation, and makes the equations of crates/f77_meaning/proofs/cases of them.

    python3 bench/runs.py            prints for each text how it ends, what it prints, and how many inputs are left
    python3 bench/runs.py --write    writes an antt file for each text: the program as trees and symbols, and its run

A text `NAME.f` has its input in `NAME.in`, if it has any. The files hold by computation (`refl`) where the definitions of a run agree with
the reference: on outcome, printed values, rest of the input, and each read and write with its unit.
"""
import pathlib
import re
import sys

from reference import load

HERE = pathlib.Path(__file__).parent / 'runs'
CASES = pathlib.Path(__file__).parent.parent / 'crates/f77_meaning/proofs/cases'
TURNS = 5
FAULTS = {1: 'Arithmetic', 2: 'Unset', 3: 'Bounds', 4: 'Input', 5: 'Locked', 6: 'Shared'}


def integer(n):
    return f'(pos {n})' if n >= 0 else f'(negsuc {-n - 1})'


def text(x):
    return f'(codes "{x}")'


def maybe(x):
    return 'None' if x is None else f'(Some {x})'


def listed(parts):
    return '(' + ' ∷ '.join(list(parts) + ['[]']) + ')' if parts else '[]'


# ---- trees

def expr(e):
    head = e[0]
    if head == 'Int':
        return f'(int {integer(e[1])})'
    if head == 'Log':
        return f'(log {str(bool(e[1])).lower()})'
    if head == 'Name':
        return f'(name {text(e[1])})'
    if head == 'Element':
        return f'(element {text(e[1])} {exprs(e[2])})'
    if head == 'Paren':
        return f'(paren {expr(e[1])})'
    if head == 'Unary':
        return f'(unary unary_op.{e[1]} {expr(e[2])})'
    if head == 'Binary':
        return f'(binary binary_op.{e[1]} {expr(e[2])} {expr(e[3])})'
    if head == 'Chars':
        return f'(chars {text(e[1])})'
    raise ValueError(e)


def exprs(es):
    return f'(exprs_of {listed([expr(e) for e in es])})' if es else 'no_exprs'


def stmts(body):
    return f'(stmts_of {listed([stmt(s) for s in body])})' if body else 'no_stmts'


def stmt(s):
    return f'stmt {s.id} {maybe(s.label)} {what(s.what)}'


def what(w):
    head = w[0]
    if head == 'Assign':
        return f'(assign {expr(w[1])} {expr(w[2])})'
    if head == 'If':
        arms = listed([f'arm {expr(a.test)} {stmts(a.body)}' for a in w[1]])
        return f'(block_if (arms_of {arms}) {"no_else" if w[2] is None else "(otherwise " + stmts(w[2]) + ")"})'
    if head == 'LogicalIf':
        return f'(logical_if {expr(w[1])} ({stmt(w[2])}))'
    if head == 'Do':
        l = w[1]
        step = maybe(None if l.step is None else expr(l.step))
        return f'(do_loop (loop {text(l.index)} {expr(l.first)} {expr(l.last)} {step} {stmts(l.body)}))'
    if head == 'Call':
        return f'(call {text(w[1])} {exprs(w[2])})'
    if head == 'Goto':
        return f'(goto {w[1]})'
    if head in ('Continue', 'Return'):
        return head.lower()
    if head == 'Stop':
        return f'(stop {maybe(None if w[1] is None else text(w[1]))})'
    if head in ('Print', 'Read'):
        return f'({head.lower()} {exprs(w[1])})'
    raise ValueError(w)


# ---- symbols and links

def place(p):
    if p[0] == 'Local':
        return f'(place.Local {p[1]} {p[2]})'
    if p[0] == 'Dummy':
        return f'(place.Dummy {p[1]})'
    if p[0] == 'Block':
        return f'(place.Block {text(p[1])} {p[2]})'
    return f'(place.Constant {integer(int(p[1]))})'


def symbol(s):
    bounds = [f'bound {expr(b.low)} {maybe(None if b.high is None else expr(b.high))}' for b in s.bounds]
    runs = [f'initial_run {o} {c} {integer(int(v))}' for o, c, v in s.initial]
    return f'symbol {text(s.name)} scalar.{s.scalar} {listed(bounds)} {place(s.place)} {str(bool(s.saved)).lower()} {listed(runs)}'


def known(module, symbols):
    shape = 'main_module' if module.main else 'subroutine'
    dummies = '' if module.main else ' ' + listed([text(d) for d in module.dummies])
    lines = ' ∷\n    '.join([symbol(s) for s in symbols] + ['[]'])
    return f'{shape} {text(module.name)}{dummies}\n    {stmts(module.body)}\n    ({lines})'


def graph(g):
    edges = [f'edge {text(e.caller)} {e.at} {text(e.callee)}' for e in g.edges]
    blocks = [f'block_of {text(b.name)} {b.size}' for b in g.blocks]
    return f'graph {listed([text(x) for x in g.order])} {listed(edges)} {listed(blocks)}'


# ---- runs

def content(c):
    return f'(content {c[0]} {integer(c[1])})'


def shown(x):
    return f'Text {text(x[1])}' if x[0] == 'Chars' else f'Value {content(x)}'


def unit(u):
    if u[0] == 'L':
        return f'(at (group {text(u[1])} {u[2]}) {u[3]})'
    if u[0] == 'B':
        return f'(at (block {text(u[1])}) {u[2]})'
    return f'(at (own {text(u[1])} {u[2]} {u[3]}) {u[4]})'


def event(e):
    if e[0] == 'Arrive':
        return f'Arrives {text(e[1])} {e[2]}'
    if e[0] == 'Read':
        return f'Reads {unit(e[1])}'
    if e[0] == 'Write':
        return f'Writes {unit(e[1])} {content(e[2])}'
    if e[0] == 'Print':
        return f'Prints {listed([shown(x) for x in e[1]])}'
    return f'Takes {maybe(content(e[1]))}'


def answer(outcome):
    head = outcome[0]
    if head == 'Fault':
        return f'Broke (Faulty {FAULTS[outcome[1]]})'
    if head == 'OutOfTurns':
        return 'Broke OutOfTurns'
    return 'Gave ' + {'Normal': 'Normal', 'Stop': 'Stopped', 'Return': 'Returned'}[head]


def events_of(run):
    """With the item that a READ faults at, which the reference does not count as taken."""
    events = list(run.trace)
    if run.outcome[:2] == ('Fault', 4):
        return [event(e) for e in events] + [f'Takes {maybe(content(run.rest[0]) if run.rest else None)}']
    return [event(e) for e in events]


def rest_of(run):
    return run.rest[1:] if run.outcome[:2] == ('Fault', 4) else run.rest


IMPORTS = [
    ('Rattle.std.proofs.Common', ['◌≡◌', 'ℕ', 'List', '[]', '◌∷◌', 'None', 'Some', 'true', 'false', 'refl', 'pos', 'negsuc']),
    ('Rattle.std.specs.Prelude', ['codes']),
    ('Rattle.f77_ast.specs.declared.expr.UnaryOp.TheVariants', 'unary_op'),
    ('Rattle.f77_ast.specs.declared.expr.BinaryOp.TheVariants', 'binary_op'),
    ('Rattle.f77_ast.specs.declared.decl.Scalar.TheVariants', 'scalar'),
    ('Rattle.f77_ast.specs.Plain', ['exprs_of']),
    ('Rattle.f77_ast.specs.Trees', [
        'int', 'log', 'name', 'element', 'paren', 'unary', 'binary', 'chars', 'no_exprs', 'stmt', 'assign', 'block_if', 'logical_if',
        'do_loop', 'call', 'goto', 'continue', 'return', 'stop', 'print', 'read', 'arm', 'no_else', 'otherwise', 'loop', 'no_stmts']),
    ('Rattle.f77_ast.specs.Store', ['Int', 'Log', 'Content', 'content']),
    ('Rattle.f77_ast.specs.Faults', ['Arithmetic', 'Unset', 'Bounds', 'Input', 'Locked', 'Shared']),
    ('Rattle.f77_ast.specs.Steps', ['Faulty', 'OutOfTurns', 'Value', 'Text']),
    ('Rattle.f77_ast.specs.Runs', ['Gave', 'Broke']),
    ('Rattle.f77_ast.specs.Plans', ['Normal', 'Returned', 'Stopped']),
    ('Rattle.f77_ast.specs.declared.symbol.Place.TheVariants', 'place'),
    ('Rattle.call_graph.specs.declared.graph.Graph', ['Graph']),
    ('Rattle.f77_meaning.specs.Areas', ['Area', 'block', 'group', 'own', 'unit_at']),
    ('Rattle.f77_meaning.specs.Modules', ['Known']),
    ('Rattle.f77_meaning.specs.Linked', ['numbering']),
    ('Rattle.f77_meaning.proofs.CaseWords', [
        'bound', 'initial_run', 'symbol', 'main_module', 'subroutine', 'edge', 'block_of', 'graph', 'stmts_of', 'arms_of', 'Arrives',
        'Reads', 'Writes', 'Prints', 'Takes', 'ending', 'end_of', 'seen_in']),
]
# what stands in one file: the file that has no input for all others, and that of proofs whose program is the one of a text
FIRST = 'active_variable'
NO_INPUT = ('Rattle.f77_meaning.proofs.cases.ActiveVariable', ['input'])
ELSEWHERE = {'lent_block': ('Rattle.f77_meaning.proofs.ClaimCases', ['module_p', 'module_s'])}


def imports(body, shared):
    """Of these those that the body names, and then what is shared."""
    words = set(re.findall(r'[^\s(){},;]+', re.sub(r'"[^"]*"', '', body)))
    lines = []
    for module, names in IMPORTS:
        if isinstance(names, str):
            if re.search(rf'\b{names}\.', body):
                lines.append(f'use {module} as {names}')
            continue
        used = [n for n in names if n.strip('◌') in words]
        if used:
            lines.append(f'use {module}.{{{", ".join(used)}}}')
    lines += [f'use {module}.{{{", ".join(names)}}}' for module, names in shared]
    return '\n'.join(lines) + '\n'


def case(name, read, interp):
    source = (HERE / f'{name}.f').read_text()
    given = HERE / f'{name}.in'
    words = given.read_text().split() if given.exists() else []
    inputs = [w == '.TRUE.' if w.startswith('.') else int(w) for w in words]
    program = read.read(source)
    run = interp.run_program(program, inputs, TURNS)
    about = source.splitlines()[0][2:]
    return program, [interp.contents(v) for v in inputs], run, about


def shared_by(name, inputs):
    """What the file of a text takes from other files."""
    found = [ELSEWHERE[name]] if name in ELSEWHERE else []
    return found + ([NO_INPUT] if not inputs and name != FIRST else [])


def file_of(name, program, inputs, run, about):
    modules, shared = [p.module for p in program.parsed], shared_by(name, inputs)
    names = [f'module_{m.name.lower()}' for m in modules]
    lines = []
    for module, symbols, x in zip(modules, program.tables, names):
        lines.append(f'abbrev {x} : Known\n{x} = {known(module, symbols)}\n')
    lines.append(f'abbrev modules : List Known\nmodules = {" ∷ ".join(names)} ∷ []\n')
    lines.append(f'abbrev links : Graph\nlinks = {graph(program.graph)}\n')
    lines.append(f'abbrev {"pub " if name == FIRST else ""}input : List Content\ninput = {listed([content(c) for c in inputs])}\n')
    lines.append('abbrev at : Area → ℕ → ℕ\nat a o = unit_at (numbering modules links) a o\n')
    rest = listed([content(c) for c in rest_of(run)])
    lines.append(f'ends : end_of modules links {TURNS} input ≡ ending ({answer(run.outcome)}) {rest}\nends = refl\n')
    events = '\n    ∷ '.join(events_of(run) + ['[]'])
    lines.append(f'sees : seen_in modules links {TURNS} input ≡\n    {events}\nsees = refl')
    taken = tuple(f'abbrev {x} :' for _, found in shared for x in found)
    body = '\n'.join(part for part in lines if not part.startswith(taken)) + '\n'
    return f'-- {name}.f: {about}\n{imports(chr(10).join(lines), shared)}\n{body}'


def main(words):
    interp, read = load('interp'), load('read')
    names = sorted(p.stem for p in HERE.glob('*.f'))
    if '--write' in words:
        CASES.mkdir(parents=True, exist_ok=True)
    for name in names:
        program, inputs, run, about = case(name, read, interp)
        printed = '; '.join(' '.join(str(v[1]) for v in items) for items in run.printed)
        print(f'{name}: {" ".join(str(x) for x in run.outcome[:2])}; prints {printed or "nothing"}; {len(run.rest)} left')
        if '--write' in words:
            module = ''.join(part.capitalize() for part in name.split('_'))
            (CASES / f'{module}.antt').write_text(file_of(name, program, inputs, run, about))


if __name__ == '__main__':
    main(sys.argv[1:])
