#!/usr/bin/env python3
"""Makes the cases of crates/cases_rows: its `stdin`, and its `stdout` by the answers of the reference.

    python3 bench/cases_rows.py [SEED]

Random systems have up to 6 variables, 12 rows and factors to 50, and some have numbers near 2^62. Among them are systems that would be refuted but for
the drop of rows by their originals.
"""
import concurrent.futures
import random
import sys
import types

from affine_text import case_text, exact_text, row_text, system_text, var_text
from reference import load, write_cases

NAMES = ['I', 'J', 'K', 'L', 'M', 'N']
BIG = 1 << 62


class Systems:
    """Calls on rows and systems."""

    def __init__(self, seed):
        self.affine, self.model, self.pick = load('affine'), load('model'), random.Random(seed)

    def names(self):
        """Up to six variables of any kind."""
        kinds = [self.model.Cell, self.model.Cell, self.model.Exit, self.model.Phi, self.model.Aux]
        count = self.pick.randint(1, 6)
        found = {self.pick.choice(kinds)(self.pick.randint(0, 9)) for _ in range(count)}
        return sorted(found)

    def number(self, size):
        """A number up to a size; for size None one near 2^62, or past it."""
        if size is not None:
            return self.pick.randint(-size, size)
        base = self.pick.choice([1, 2, 3, BIG // 3, BIG // 2, BIG - 1, BIG, BIG + 1, 2 * BIG, 3 * BIG, 1 << 100])
        return self.pick.choice([-1, 1]) * (base + self.pick.randint(-1, 1))

    def row(self, names, size, equal=0.2, bound=None):
        most = min(len(names), self.pick.choice([1, 2, 2, 3, 3, 6]))
        chosen = self.pick.sample(names, most)
        terms = [(v, self.number(size)) for v in chosen]
        return self.affine.row_of(self.pick.random() < equal, terms, self.number(size if bound is None else bound))

    def rows(self, names, size, most=12, equal=0.2):
        return [self.row(names, size, equal) for _ in range(self.pick.randint(1, most))]

    def size(self):
        return self.pick.choice([1, 2, 3, 3, 6, 10, 50, 50, None])

    def around(self, names, size, least, most, equal, slack):
        """At least so many rows around a point; `slack` moves the bound of each away from what the row has there."""
        at = {v: self.pick.randint(-9, 9) for v in names}
        rows = []
        for _ in range(self.pick.randint(least, most)):
            row = self.row(names, size, equal=equal)
            value = sum(f * at[v] for v, f in row.terms)
            rows.append(row._replace(bound=value + slack(row.equal)))
        return rows

    def feasible(self, names, size, most=12):
        """Rows that hold at a point, so that more is left to eliminate."""
        return self.around(names, size, 2, most, 0.15, lambda equal: 0 if equal else self.pick.randint(0, 6))

    def thin(self, names, size, most=12):
        """Rows around no point: most have none, some by a little."""
        return self.around(names, size, 3, most, 0.1, lambda equal: -self.pick.randint(-2, 1))

    def system(self, most=12):
        names = self.names()
        size = self.size()
        if size is None:
            rows = self.rows(names, None, min(most, 6))
        else:
            rows = self.pick.choice([self.rows, self.feasible, self.thin])(names, size, most)
        return names, self.model.System(tuple(rows), self.pick.random() < 0.1)

    def tidied(self, most=12):
        names, given = self.system(most)
        return names, given, self.affine.tidy(given)

    # Each call: the line, and the answer.

    def normalise(self):
        row = self.row(self.names(), self.size(), equal=0.5)
        answer, new = self.affine.normalise(row)
        text = {'Kept': row_text(new), 'True': 'true', 'False': 'false', 'TooBig': 'too big'}[answer]
        return case_text('normalise', (), [row_text(row)]), text

    def tidy(self):
        _, given, sys_ = self.tidied()
        return case_text('tidy', (), [system_text(given)]), system_text(sys_)

    def push_row(self):
        names, given, sys_ = self.tidied(9)
        row = self.row(names, self.size())
        return case_text('push_row', (), [system_text(given), row_text(row)]), system_text(self.affine.push_row(sys_, row))

    def meet(self):
        names, given, sys_ = self.tidied(6)
        size = self.size()
        other = self.model.System(tuple(self.rows(names, size, 6)), self.pick.random() < 0.1)
        both = self.affine.meet(sys_, self.affine.tidy(other))
        return case_text('meet', (), [system_text(given), system_text(other)]), system_text(both)

    def rename(self):
        names, given, sys_ = self.tidied(9)
        free = [v for v in (self.model.Cell(3), self.model.Exit(77), self.model.Aux(0)) if v not in names]
        pair = (self.pick.choice(names), self.pick.choice(free))
        return case_text('rename', pair, [system_text(given)]), system_text(self.affine.rename(sys_, *pair))

    def substitute(self):
        while True:
            names = self.names()
            size = self.size()
            var = self.pick.choice(names)
            by = self.row(names, size)
            terms = dict(by.terms)
            terms[var] = self.pick.choice([-1, 1])
            kept_by, by = self.affine.normalise(self.affine.row_of(True, terms, by.bound))
            kept, row = self.affine.normalise(self.row(names, size, equal=0.5))
            if kept == kept_by == 'Kept':
                break
        new = self.affine.substitute(row, var, by)
        text = 'too big' if new is None else row_text(new)
        return case_text('substitute', [var], [row_text(row), row_text(by)]), text

    def eliminate(self):
        names, given, sys_ = self.tidied()
        var = self.pick.choice(names)
        left, exact = self.affine.eliminate(sys_, var)
        return case_text('eliminate', [var], [system_text(given)]), exact_text(exact, left)

    def project(self):
        names, given, sys_ = self.tidied(10)
        chosen = [self.pick.choice(names) for _ in range(self.pick.randint(0, len(names)))]
        left, exact = self.affine.project(sys_, chosen)
        return case_text('project', chosen, [system_text(given)]), exact_text(exact, left)

    def refuted(self):
        _, given, sys_ = self.tidied()
        return case_text('refuted', (), [system_text(given)]), 'yes' if self.affine.refuted(sys_) else 'no'

    def entails(self):
        while True:
            names, given, sys_ = self.tidied(9)
            kept, row = self.affine.normalise(self.row(names, self.pick.choice([1, 2, 6, 50])))
            if kept == 'Kept':
                break
        if self.pick.random() < 0.5 and len(sys_.rows) > 1:
            one, two = self.pick.sample(sys_.rows, 2)
            kept, sum_ = self.affine.normalise(self.affine.combine(1, one, 1, two))
            if kept == 'Kept':
                row = sum_
        return (case_text('entails', (), [system_text(given), row_text(row)]),
                'yes' if self.affine.entails(sys_, row) else 'no')

    def clean(self):
        _, given, sys_ = self.tidied(10)
        return case_text('clean', (), [system_text(given)]), system_text(self.affine.clean(sys_))

    def pair(self, most=7):
        """Two systems over the same variables."""
        names = self.names()[:4]
        size = self.pick.choice([1, 2, 3, 3, 6, 10, 50, None])

        def one():
            if size is None:
                rows = self.rows(names, None, 4)
            else:
                rows = self.pick.choice([self.rows, self.feasible, self.feasible])(names, size, most)
            return self.model.System(tuple(rows), self.pick.random() < 0.1)
        return one(), one()

    def hull(self):
        a, b = self.pair()
        joined = self.affine.hull(self.affine.tidy(a), self.affine.tidy(b))
        return case_text('hull', (), [system_text(a), system_text(b)]), system_text(joined)

    def minus(self):
        a, b = self.pair(5)
        if self.pick.random() < 0.4:
            b = self.model.System(b.rows[:1], b.weak)
        left, exact = self.affine.minus(self.affine.tidy(a), self.affine.tidy(b))
        text = exact_text(exact, left) if left is not None else 'nothing' if exact else 'not exact'
        return case_text('minus', (), [system_text(a), system_text(b)]), text

    def turn(self, cell):
        """A row on how a turn changes a cell."""
        step = self.pick.choice([-2, -1, 0, 1, 1, 1, 2, 3])
        exit_ = self.model.Exit(cell[1])
        equal = self.pick.random() < 0.6
        sign = 1 if equal else self.pick.choice([-1, 1])
        return self.affine.row_of(equal, [(exit_, sign), (cell, -sign)], step)

    def closure(self):
        cells = [self.model.Cell(n) for n in sorted(self.pick.sample(range(6), self.pick.randint(1, 3)))]
        names = cells + [self.model.Exit(c[1]) for c in cells] + self.pick.choice([[], [self.model.Phi(1)], [self.model.Aux(3)], [self.model.Cell(9)]])
        size = self.pick.choice([1, 1, 2, 3, 6, None])
        rows = [self.turn(c) for c in cells if self.pick.random() < 0.9]
        more = self.pick.choice([self.rows, self.feasible, self.feasible])(names, size or 3, 5) if size else self.rows(names, None, 3)
        given = self.model.System(tuple(rows + more), self.pick.random() < 0.1)
        changes = cells if self.pick.random() < 0.8 else cells + cells[:1]
        self.pick.shuffle(changes)
        return (case_text('closure', changes, [system_text(given)]),
                system_text(self.affine.closure(sorted(set(changes)), self.affine.tidy(given))))

    def wide(self, lows, ups):
        """An elimination with more than 512 pairs."""
        v, w = self.model.Cell(0), self.model.Cell(1)
        rows = [self.affine.row_of(False, {v: -self.pick.randint(1, 9), w: k + 1}, k) for k in range(lows)]
        rows += [self.affine.row_of(False, {v: self.pick.randint(1, 9), self.model.Phi(1): k + 1}, -k) for k in range(ups)]
        given = self.model.System(tuple(rows), False)
        left, exact = self.affine.eliminate(self.affine.tidy(given), v)
        return case_text('eliminate', [v], [system_text(given)]), exact_text(exact, left)


class Areas(Systems):
    """Calls on a work area."""

    def columns(self, systems):
        """Columns that are enough for systems, or nearly."""
        most = max(len({v for row in s.rows for v, _ in row.terms}) for s in systems)
        return max(0, most + self.pick.choice([-1, 0, 0, 0, 1]))

    def has_room(self, columns, sys_):
        return len({v for row in sys_.rows for v, _ in row.terms}) <= columns

    def eliminate_in(self):
        """In an area of so many columns, one variable after another."""
        names, given, sys_ = self.tidied()
        columns = self.columns([sys_])
        chosen = self.pick.sample(names, self.pick.randint(1, len(names)))
        line = f'eliminate_in {columns}' + case_text('', chosen, [system_text(given)])
        if not self.has_room(columns, sys_):
            return line, 'no room'
        exact = True
        for var in chosen:
            sys_, one = self.affine.eliminate(sys_, var)
            exact = exact and one
        return line, exact_text(exact, sys_)

    def refuted_in(self):
        """Of several systems, one after another in one area."""
        systems = [self.tidied() for _ in range(self.pick.randint(1, 3))]
        columns = self.columns([s for _, _, s in systems])
        answers = ['no room' if not self.has_room(columns, s) else 'yes' if self.affine.refuted(s) else 'no' for _, _, s in systems]
        return f'refuted_in {columns}' + case_text('', (), [system_text(given) for _, given, _ in systems]), ' , '.join(answers)

    def crowded(self, lows, ups):
        """An elimination with more than 512 pairs, and an equal row beside them."""
        v, w, x = self.model.Cell(0), self.model.Cell(1), self.model.Cell(2)
        rows = [self.affine.row_of(False, {v: -self.pick.randint(1, 9), w: k + 1}, k) for k in range(lows)]
        rows += [self.affine.row_of(False, {v: self.pick.randint(1, 9), self.model.Phi(1): k + 1}, -k) for k in range(ups)]
        rows.append(self.affine.row_of(True, {w: 1, x: -2}, 3))
        given = self.model.System(tuple(rows), False)
        left, exact = self.affine.eliminate(self.affine.tidy(given), v)
        return f'eliminate_in 4 {var_text(v)} ; {system_text(given)}', exact_text(exact, left)


class Namings(Systems):
    """Calls that rename many variables, add rows together, number fresh variables, and write systems with names."""

    def rename_all(self):
        """Some variables by others, among them two by one name, and one by the name of another."""
        names, given, sys_ = self.tidied(7)
        kinds = [self.model.Cell, self.model.Exit, self.model.Aux]
        pairs = {v: self.pick.choice([self.pick.choice(names), self.pick.choice(kinds)(self.pick.randint(0, 9))])
                 for v in self.pick.sample(names, self.pick.randint(0, len(names)))}
        words = [v for pair in pairs.items() for v in pair]
        return case_text('rename_all', words, [system_text(given)]), system_text(self.affine.rename_all(sys_, pairs))

    def of_rows(self):
        _, given = self.system(9)
        rows = ' , '.join(row_text(row) for row in given.rows)
        return case_text('of_rows', (), [rows]), system_text(self.affine.of_rows(given.rows))

    def push_rows(self):
        names, given, sys_ = self.tidied(6)
        rows = self.rows(names, self.size(), 4) if self.pick.random() < 0.9 else []
        return (case_text('push_rows', (), [system_text(given), ' , '.join(row_text(row) for row in rows)]),
                system_text(self.affine.push_rows(sys_, rows)))

    def fresh_over(self):
        _, one, a = self.tidied(5)
        _, other, b = self.tidied(5)
        more = self.pick.randint(0, 5)
        return f'fresh_over {more}' + case_text('', (), [system_text(one), system_text(other)]), str(self.affine.fresh(a, b))

    def text(self):
        """A system as it stands, with names for its variables."""
        printer, scalars = load('printer'), load('scalars')
        _, given = self.system(6)
        symbols = [types.SimpleNamespace(name=n) for n in 'ABCDEFGHIK']
        rows = [row._replace(terms=tuple(((v[0], v[1] + (v[0] < 2)), f) for v, f in row.terms)) for row in given.rows]
        sys_ = self.model.System(tuple(rows), given.weak)
        words = ' '.join(s.name for s in symbols)
        cells = sorted(self.pick.sample(range(1, 11), self.pick.randint(1, 3)))
        call = self.pick.choice(['text', 'precondition', 'transformer'])
        if call == 'text':
            return f'text {words} ; {system_text(sys_)}', printer.system_text(symbols, sys_)
        if call == 'precondition':
            return f'precondition {words} ; {system_text(sys_)}', printer.p_line(symbols, sys_)
        t = self.model.Transformer(cells, [], sys_)
        return f'transformer {words} ; {" ".join(map(str, cells))} ; {system_text(sys_)}', printer.t_lines(symbols, t)[0]


class Forms:
    """Calls on forms, conditions and transformers of up to six cells; some numbers are near 2^62."""

    def __init__(self, seed):
        self.affine, self.model, self.scalars = load('affine'), load('model'), load('scalars')
        self.scalars.tracked = lambda view, n: view.tracked[n - 1]
        self.pick = random.Random(seed)

    # ---- systems and transformers

    def system(self, variables, most=4):
        pick = self.pick
        at = {v: pick.randint(-9, 9) for v in variables}
        rows = []
        for _ in range(pick.randint(0, most)):
            chosen = pick.sample(variables, min(len(variables), pick.choice([1, 2, 2, 3])))
            big = pick.random() < 0.02
            terms = [(v, pick.choice([(1 << 61) + 1, -(1 << 61)]) if big else pick.choice([-3, -2, -1, -1, 1, 1, 2, 5])) for v in chosen]
            equal = pick.random() < 0.4
            row = self.affine.row_of(equal, terms, 0)
            bound = sum(f * at[v] for v, f in row.terms)
            rows.append(row._replace(bound=bound + (0 if equal else pick.randint(-1, 6))))
        return self.affine.tidy(self.model.System(tuple(rows), pick.random() < 0.05))

    def cells(self, most=4):
        return sorted(self.pick.sample(range(1, 7), self.pick.randint(0, most)))

    def units(self):
        return sorted({self.model.Unit(self.pick.choice(['A', 'B', 'AB']), self.pick.randint(0, 12)) for _ in range(self.pick.randint(0, 2))}, key=self.scalars.unit_key)

    def transformer(self, cells=None, aux=True):
        cells = self.cells() if cells is None else cells
        variables = [self.model.Cell(c) for c in range(1, 7)] + [self.model.Exit(c) for c in cells]
        if aux and self.pick.random() < 0.3:
            variables.append(self.model.Aux(self.pick.randint(0, 5)))
        return self.model.Transformer(cells, self.units(), self.system(variables))

    def entry(self):
        return self.system([self.model.Cell(c) for c in range(1, 7)])

    # ---- expressions

    def view(self):
        words, symbols, flags = [], [], []
        for name in NAMES:
            kind = self.pick.choice(['cell', 'cell', 'cell', 'other', 'int', 'log'])
            value = None
            if kind == 'int':
                value = self.pick.choice([0, 1, -3, 7, 2147483647])
            elif kind == 'log':
                value = self.pick.randint(0, 1)
            words.append({'cell': name, 'other': name + '*', 'int': f'{name}={value}', 'log': f'{name}={"T" if value else "F"}'}[kind])
            place = ('Local', 1, 0) if value is None else ('Constant', value)
            symbols.append(types.SimpleNamespace(name=name, scalar='Log' if kind == 'log' else 'Int', bounds=(), place=place, saved=False, initial=()))
            flags.append(kind == 'cell')
        return words, types.SimpleNamespace(symbols=symbols, tracked=flags)

    def cells_view(self):
        symbols = [types.SimpleNamespace(name=n, scalar='Int', bounds=(), place=('Local', 1, 0), saved=False, initial=()) for n in NAMES]
        flags = [True] * 6
        if self.pick.random() < 0.15:
            flags[self.pick.randint(0, 5)] = False
        return [n if f else n + '*' for n, f in zip(NAMES, flags)], types.SimpleNamespace(symbols=symbols, tracked=flags)

    def integer(self, depth, only_plain=False):
        pick = self.pick
        if depth == 0 or pick.random() < 0.2:
            if not only_plain and pick.random() < 0.05:
                return ('Element', 'MOD', (('Int', 1),))
            if pick.random() < 0.55:
                return ('Name', pick.choice(NAMES + ['ZZ']))
            return ('Int', pick.choice([0, 1, 2, 3, -4, 10, 65536, 2147483647]))
        form = pick.random()
        if form < 0.12:
            return ('Paren', self.integer(depth - 1))
        if form < 0.25:
            return ('Unary', pick.choice(['Plus', 'Minus']), self.integer(depth - 1))
        op = pick.choice(['Add', 'Add', 'Sub', 'Sub', 'Mul', 'Mul', 'Div', 'Pow'])
        return ('Binary', op, self.integer(depth - 1), self.integer(depth - 1))

    def logical(self, depth):
        pick = self.pick
        form = pick.random()
        if depth == 0 or form < 0.45:
            if pick.random() < 0.1:
                return pick.choice([('Log', True), ('Log', False), ('Name', pick.choice(NAMES))])
            op = pick.choice(['Eq', 'Ne', 'Lt', 'Le', 'Gt', 'Ge'])
            return ('Binary', op, self.integer(2), self.integer(2))
        if form < 0.55:
            return ('Paren', self.logical(depth - 1))
        if form < 0.7:
            return ('Unary', 'Not', self.logical(depth - 1))
        return ('Binary', pick.choice(['And', 'And', 'Or', 'Or', 'Eqv', 'Neqv']), self.logical(depth - 1), self.logical(depth - 1))

    def text(self, e):
        head = e[0]
        if head == 'Int':
            return str(e[1])
        if head == 'Log':
            return '.T.' if e[1] else '.F.'
        if head == 'Name':
            return e[1]
        if head == 'Element':
            return e[1] + '(1)'
        if head == 'Paren':
            return self.text(e[1]) + ' ()'
        if head == 'Unary':
            return self.text(e[2]) + ' ' + e[1].lower()
        return self.text(e[2]) + ' ' + self.text(e[3]) + ' ' + e[1].lower()

    # ---- texts

    def transformer_text(self, t):
        cells = ''.join(f'{c} ' for c in t.cells)
        units = ''.join(f'{u.block} {u.offset} ' for u in t.foreign)
        return f'{cells}| {units}| {system_text(t.system)}'

    def affine_text(self, f):
        if f is None:
            return 'none'
        terms = ''.join(f'{k} {"cxpa"[v[0]]}{v[1]} ' for v, k in f.terms)
        return f'{terms}{f.constant}'

    def side(self, exact, sys_):
        return ('exact ' if exact else 'not exact ') + system_text(sys_)

    # ---- calls: the line, and the answer

    def form(self):
        words, view = self.view()
        e = self.integer(self.pick.randint(0, 5))
        return ['form', ' '.join(words), self.text(e)], self.affine_text(self.scalars.affine_of(view, e))

    def condition(self):
        words, view = self.view()
        e = self.logical(self.pick.randint(0, 3))
        c = self.scalars.condition_of(view, e)
        return ['condition', ' '.join(words), self.text(e)], self.side(c.yes_exact, c.yes) + ' ; ' + self.side(c.no_exact, c.no)

    def then(self):
        a, b = self.transformer(), self.transformer()
        return ['then', self.transformer_text(a), self.transformer_text(b)], self.transformer_text(self.scalars.then(a, b))

    def apply(self):
        t, p = self.transformer(), self.entry()
        return ['apply', self.transformer_text(t), system_text(p)], system_text(self.scalars.apply(t, p))

    def closed(self):
        t = self.transformer(self.cells(3))
        return ['closed', self.transformer_text(t)], self.transformer_text(self.scalars.closed(t))

    def one(self):
        arms = [self.transformer(self.cells(3), False) for _ in range(self.pick.randint(1, 3))]
        s = self.scalars
        cells = s.join_cells(*[t.cells for t in arms])
        whole = [self.affine.push_rows(t.system, s.equals([c for c in cells if c not in t.cells])) for t in arms]
        answer = s.changing(cells, self.affine.hull_all(whole), s.join_foreign(*[t.foreign for t in arms]))
        return ['one'] + [self.transformer_text(t) for t in arms], self.transformer_text(answer)

    def loop(self):
        words, view = self.cells_view()
        s, m = self.scalars, self.model
        index = self.pick.randint(1, 6)
        step = self.pick.choice([1, 1, 1, 2, -1, -3, None])
        body = self.transformer(self.cells(2), False)
        first, last = self.integer(2), self.integer(2)
        step_expr = ('Name', 'ZZ') if step is None else ('Int', step)
        loop = types.SimpleNamespace(index=NAMES[index - 1], first=first, last=last, step=step_expr, body=[1])
        kept = s.list_transformer
        s.list_transformer = lambda view, lst, whole, at: body
        stmt = types.SimpleNamespace(what=('Do', loop))
        parts = s.loop_parts(view, stmt, {})
        whole = s.do_transformer(view, stmt, {})
        s.list_transformer = kept
        p, q = self.entry(), self.entry()
        turn = parts['turn']
        if step is None:
            begun = s.apply(parts['start'], self.affine.push_rows(p, parts['guard']))
            within = done = self.affine.drop_vars(p, [m.Cell(c) for c in parts['changed']])
        else:
            begun, within = s.loop_head(parts, p)
            done = s.loop_end(parts, p, q)
        some = s.some_transformer(parts)
        some = m.Transformer(some.cells, some.foreign, some.system)
        line = ['loop', ' '.join(words), f'{index} {"none" if step is None else step}', self.text(first), self.text(last),
                self.transformer_text(body), system_text(p), system_text(q)]
        zero = s.zero_system(parts)
        answer = [self.transformer_text(turn), system_text(zero), self.transformer_text(some), self.transformer_text(whole),
                  system_text(begun), system_text(within), system_text(done)]
        return line, ' ; '.join(answer)

    def cases(self, count):
        calls = [self.form, self.condition, self.then, self.apply, self.closed, self.one, self.loop]
        weights = [6, 6, 4, 3, 2, 2, 4]
        for _ in range(count):
            yield self.pick.choices(calls, weights)[0]()


# Known rows and known corners: a row, or an answer, that says what it shows.
NAMED = [
    ('normalise ; -10 c0 10 c1 <= 9', '-1 c0 1 c1 <= 0'),
    ('refuted ; 1 c0 -2 c1 == 0 , 1 c0 -2 c2 == 1', 'yes'),
    ('project c0 ; -1 c0 <= -1 , 1 c0 <= 4 , -2 c0 1 p1 == 0', 'not exact ; -1 p1 <= -2 , 1 p1 <= 8'),
    ('eliminate c0 ; -2 c0 1 c1 <= 0 , 3 c0 -1 c2 <= 0', 'not exact ; 3 c1 -2 c2 <= 0'),
    ('hull ; 1 c0 == 1 ; 1 c0 == 5', '-1 c0 <= -1 , 1 c0 <= 5'),
    ('minus ; -1 c0 <= -1 , 1 c0 <= 9 ; 1 c0 == 1', 'exact ; -1 c0 <= -2 , 1 c0 <= 9'),
    ('minus ; -1 c0 <= -1 , 1 c0 <= 9 ; 1 c0 == 4', 'not exact ; -1 c0 <= -1 , 1 c0 <= 9'),
    ('minus ; 1 c0 == 1 ; 1 c0 <= 1', 'nothing'),
    ('closure c0 ; -1 c0 1 x0 == 1', '1 c0 -1 x0 <= 0'),
    ('closure c0 ; 1 c0 <= 3 , -1 c0 <= -5', '-1 c0 1 x0 == 0'),
    # no point, not even a rational one, which the drop by originals does not let be seen
    ('refuted ; -2 c1 -2 c2 <= 4 , -2 c0 1 c2 <= -2 , -1 c0 -1 c1 -1 c2 <= 0 , -1 c0 1 c1 -1 c2 <= -1 , '
     '1 c0 -2 c1 1 c2 <= 2 , 3 c0 1 c1 <= 2', 'no'),
]

# Small systems, rows and forms whose answers are worked out by hand.
BY_HAND = [
    # opposite rows that leave one number, and none
    ('tidy ; 1 c0 <= 3 , -1 c0 <= -3', '1 c0 == 3'),
    ('tidy ; 1 c0 <= 3 , -1 c0 <= -4', '<= -1'),
    # the last variable is the pivot; a bound is rounded down; equal rows that contradict; one that no whole numbers meet
    ('tidy ; 1 c0 2 c1 -3 c2 == 4 , 1 c0 1 c1 -2 c2 == 1', '-1 c0 1 c1 == 5 , -1 c0 1 c2 == 2'),
    ('tidy ; -10 c1 10 c2 <= 9', '-1 c1 1 c2 <= 0'),
    ('tidy ; 2 c0 3 c1 == 5 , 2 c0 3 c1 == 6', '<= -1'),
    ('tidy ; 2 c0 4 c1 == 5', '<= -1'),
    ('normalise ; 2 c0 -4 c1 == 6', '-1 c0 2 c1 == -3'),
    ('normalise ; 2 c0 -4 c1 == 5', 'false'),
    ('normalise ; <= 0', 'true'),
    ('normalise ; 3 c0 1 c1 <= 4611686018427387904', 'too big'),
    # factors 1 and 3 are exact; equal rows with factor 1 and with factor 2
    ('eliminate c0 ; -1 c0 1 c1 <= 0 , 3 c0 -1 c2 <= 0', 'exact ; 3 c1 -1 c2 <= 0'),
    ('eliminate c0 ; 1 c0 -2 c1 == 0 , 1 c0 1 c2 <= 4', 'exact ; 2 c1 1 c2 <= 4'),
    ('eliminate c0 ; 2 c0 -3 c1 == 0 , 1 c0 1 c2 <= 4', 'not exact ; 3 c1 2 c2 <= 8'),
    ('meet ; 1 c0 1 c1 <= 5 , 1 c0 <= 3 ; -1 c0 <= -3', '1 c0 == 3 , 1 c1 <= 2'),
    ('push_row ; 1 c0 1 c1 <= 5 , 1 c0 <= 3 ; -1 c0 <= -3', '1 c0 == 3 , 1 c1 <= 2'),
    ('rename c0 c2 ; 1 c0 1 c1 <= 5 , 1 c0 <= 3', '1 c2 <= 3 , 1 c1 1 c2 <= 5'),
    ('substitute c0 ; 1 c0 <= 3 ; 1 c0 == 5', '<= -2'),
    # no rows; a circle that rises; a triangle
    ('refuted ;', 'no'),
    ('refuted ; 1 c0 -1 c1 <= 0 , 1 c1 -1 c2 <= 0 , -1 c0 1 c2 <= -1', 'yes'),
    ('refuted ; -1 c0 <= 0 , -1 c1 <= 0 , 2 c0 3 c1 <= 5', 'no'),
    # an area of one column has no room for two variables, and room for one; of two columns for two variables twice, and then for none
    ('eliminate_in 1 c0 ; -1 c0 <= -1 , 1 c0 -1 c1 <= 0', 'no room'),
    ('eliminate_in 1 c0 ; -1 c0 <= -1 , 1 c0 <= 4', 'exact ; '),
    ('eliminate_in 3 c0 ; -2 c0 1 c1 <= 0 , 3 c0 -1 c2 <= 0', 'not exact ; 3 c1 -2 c2 <= 0'),
    ('eliminate_in 0 c0 ;', 'exact ; '),
    ('eliminate_in 0 c0 ; <= -1', 'exact ; <= -1'),
    ('refuted_in 2 ; 1 c0 -1 c1 <= 0 , -1 c0 1 c1 <= -1 ; 1 c0 -1 c2 <= 0 ; 1 c0 1 c1 1 c2 <= 0 ;', 'yes , no , no room , no'),
    ('refuted_in 3 ; 1 c0 -1 c1 <= 0 , 1 c1 -1 c2 <= 0 , -1 c0 1 c2 <= -1', 'yes'),
    # what two rows say together, one less, the sum, and both sides of an equal row
    ('entails ; 1 c0 <= 3 , -1 c0 1 c1 <= 0 ; 1 c1 <= 3', 'yes'),
    ('entails ; 1 c0 <= 3 , -1 c0 1 c1 <= 0 ; 1 c1 <= 2', 'no'),
    ('entails ; 1 c0 <= 3 , -1 c0 1 c1 <= 0 ; 1 c0 1 c1 <= 6', 'yes'),
    ('entails ; 1 c0 <= 3 , -1 c0 1 c1 <= 0 ; 1 c0 == 3', 'no'),
    ('entails ; 1 c0 <= 3 , -1 c0 <= -3 ; 1 c0 == 3', 'yes'),
    # a variable twice and one that does not occur; no variable; all variables of a contradiction
    ('project c2 c1 c1 ; 1 c0 -1 c1 <= 0 , 1 c1 <= 7', 'exact ; 1 c0 <= 7'),
    ('project ; 1 c0 <= 1 , 1 c0 1 c1 <= 5 , 1 c1 <= 1', 'exact ; 1 c0 <= 1 , 1 c1 <= 1'),
    ('project c1 c0 ; 1 c0 -1 c1 <= 0 , -1 c0 1 c1 <= -1', 'exact ; <= -1'),
    ('hull ; <= -1 ; 1 c0 == 5', '1 c0 == 5'),
    ('hull ; 1 c0 <= 1 ; 1 c1 <= 1', ''),
    ('minus ; -1 c0 <= -1 , 1 c0 <= 9 ; 1 c0 == 10', 'exact ; -1 c0 <= -1 , 1 c0 <= 9'),
    ('minus ; -1 c0 <= -1 , 1 c0 <= 9 ; 1 c0 <= 9', 'nothing'),
    ('closure c0 ; -1 c0 1 x0 == 0', '-1 c0 1 x0 == 0'),
    ('closure c0 ; <= -1', '-1 c0 1 x0 == 0'),
    ('closure c0 ;', ''),
    # many variables at once: I and J change names, and two get one name
    ('rename_all c1 a4 ; 1 c0 1 c1 == 5', '1 c0 1 a4 == 5'),
    ('rename_all c0 c1 c1 c0 ; 1 c0 2 c1 <= 5', '2 c0 1 c1 <= 5'),
    ('rename_all c0 c2 c1 c2 ; 1 c0 1 c1 <= 5', '1 c2 <= 2'),
    ('push_rows ; 1 c0 1 c1 == 5 ;', '1 c0 1 c1 == 5'),
    ('of_rows ;', ''),
    ('fresh_over 3 ; 1 c0 1 c1 == 5 ; 1 c0 1 a4 == 5', '5'),
    ('fresh_over 0 ; 1 c0 <= 5 ; 1 c1 <= 5', '0'),
    ('fresh_over 3 ; 1 a4294967291 <= 5 ;', '4294967292'),
    ('fresh_over 4 ; 1 a4294967291 <= 5 ;', 'none'),
    # the doubled index, the half of it, a comparison
    ('form ; I ; I 2 mul', '2 c1 0'),
    ('form ; I ; I 2 div', 'none'),
    ('condition ; I ; I 2 eq', 'exact 1 c1 == 2 ; not exact '),
    # systems as they stand, also such as no analysis makes
    ('text I J ; weak 1 c1 == -5', '{I+5==0} WEAK'),
    ('text I J ; weak -2 c1 3 x2 == 9', "{3*J'==2*I+9} WEAK"),
    ('text I J ; weak -1 c1 <= -1', '{1<=I} WEAK'),
    ('text I J ; weak <= -1', '{FALSE} WEAK'),
    ('text ;', '{}'),
    ('precondition I J ; weak 1 c2 -1 x1 <= 0', "C> P {J<=I'} WEAK"),
    ('transformer I J ; 1 2 ; weak 1 c2 -1 x1 <= 0', "C> T I,J {J<=I'} WEAK"),
]

COUNTS = [('normalise', 150), ('tidy', 350), ('push_row', 120), ('meet', 120), ('rename', 80), ('substitute', 120),
          ('eliminate', 350), ('project', 300), ('refuted', 350), ('entails', 200), ('clean', 200)]

# Slower calls, in batches of 50 that are made at the same time.
BATCHES = [('hull', 20), ('minus', 20), ('closure', 20)]

FORMS = 700
AREAS = [('eliminate_in', 150), ('refuted_in', 100)]
NAMINGS = [('rename_all', 60), ('of_rows', 20), ('push_rows', 50), ('fresh_over', 20), ('text', 80)]


def dropped(seed, want):
    """Systems that are refuted only where no row is dropped for its originals: their answer is no."""
    maker = Systems(seed)
    affine, model = maker.affine, maker.model
    names = [model.Cell(n) for n in range(5)]
    found = []
    while len(found) < want:
        given = [model.System(tuple(maker.thin(names, 3, 9)), False) for _ in range(3000)]
        tidied = [affine.tidy(sys_) for sys_ in given]
        with_drop = [affine.refuted(sys_) for sys_ in tidied]
        affine.reading(after=False)
        without = [affine.refuted(sys_) for sys_ in tidied]
        affine.reading()
        found += [sys_ for sys_, one, two in zip(given, with_drop, without) if two and not one]
    return [(case_text('refuted', (), [system_text(sys_)]), 'no') for sys_ in found[:want]]


def area_cases(seed):
    maker = Areas(f'{seed} areas')
    cases = [getattr(maker, call)() for call, count in AREAS for _ in range(count)] + [maker.crowded(24, 26), maker.crowded(2, 300)]
    return [case for case in cases if len(case[0]) + len(case[1]) < 40000]


def batch(seed, call, number):
    maker = Systems(f'{seed} {call} {number}')
    found = []
    while len(found) < 50:
        case = getattr(maker, call)()
        if len(case[0]) + len(case[1]) < 240:   # longer ones are left out: the files would grow too large
            found.append(case)
    return found


def batches(seed):
    with concurrent.futures.ProcessPoolExecutor() as pool:
        jobs = [pool.submit(batch, seed, call, k) for call, count in BATCHES for k in range(count)]
        return [case for job in jobs for case in job.result()]


def naming_cases(seed):
    maker = Namings(f'{seed} namings')
    cases = [getattr(maker, call)() for call, count in NAMINGS for _ in range(count)]
    return [case for case in cases if len(case[0]) + len(case[1]) < 400]


def main(seed='1'):
    seed = int(seed)
    maker = Systems(seed)
    cases = NAMED + [getattr(maker, call)() for call, count in COUNTS for _ in range(count)]
    cases += [maker.wide(24, 26), maker.wide(2, 300)] + dropped(seed, 8) + batches(seed)
    cases += [(' ; '.join(line), answer) for line, answer in Forms(seed).cases(FORMS)]
    cases += BY_HAND + naming_cases(seed) + area_cases(seed)
    write_cases('cases_rows', [line + '\n' for line, _ in cases], [answer + '\n' for _, answer in cases])
    answers = [answer for _, answer in cases]
    counts = {word: sum(a.startswith(word) for a in answers) for word in ('yes', 'no', 'exact', 'not exact', 'nothing', 'too big')}
    counts['weak'] = sum('weak ' in a for a in answers)
    counts['false'] = sum(a.removeprefix('weak ').removeprefix('exact ; ') == '<= -1' for a in answers)
    print(f'{len(cases)} cases, seed {seed}: {counts}')


if __name__ == '__main__':
    main(*sys.argv[1:])
