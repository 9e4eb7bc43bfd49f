"""Programs whose modules link or do not, by hand and random, of which crates/cases_programs prints the graph."""
import random

from programs import line

KINDS = ['i', 'i', 'i', 'l', 'I', 'L']
# actuals that fit a dummy of a kind, and those of the other kinds
FITTING = {'i': ['K', '7', 'K+1', 'KA(2)', '(K)', 'MOD(K,3)', 'NC', '-K'], 'l': ['LS', '.TRUE.', 'K.LT.2', 'LA(1)', '.NOT.LS', '(LS)', 'LS.OR.LS'],
           'I': ['KA', 'KA(2)'], 'L': ['LA', 'LA(1)']}
LOCALS = ['IMPLICIT LOGICAL(L)', 'INTEGER KA(4)', 'LOGICAL LA(4)', 'PARAMETER (NC=3)']


class Maker:
    """Random programs of several modules that share blocks, with a share of faults in their links."""

    def __init__(self, seed):
        self.pick = random.Random(seed)

    def chance(self, p):
        return self.pick.random() < p

    # ---- storage

    def members(self, prefix, count):
        """Members of a block: scalars and arrays, some of them LOGICAL."""
        kinds = self.pick.choices(['I', 'I', 'I', 'L', 'A', 'M'], k=count)
        return [f'{"L" if kind in "LM" else "I"}{prefix}{k}' + (f'({self.pick.randint(1, 3)})' if kind in 'AM' else '') for k, kind in enumerate(kinds)]

    def layouts(self):
        """For each block how most modules have it."""
        return {block: self.members(prefix, self.pick.randint(1, 5)) for block, prefix in [('B', 'X'), ('CC', 'Y'), ('', 'Z'), ('A1', 'W')] if self.chance(.6)}

    def changed(self, members, prefix):
        """The block as a module has it."""
        kind = self.pick.random()
        if kind < .55:
            return members
        if kind < .75:
            return members[:self.pick.randint(1, len(members))]
        if kind < .9:
            return members + self.members(prefix + 'E', self.pick.randint(1, 2))
        return self.members(prefix, self.pick.randint(1, 5))

    def blocks(self, layouts):
        lines, names = [], []
        for block, members in layouts.items():
            if self.chance(.75):
                here = self.changed(members, members[0].split('(')[0][1])
                lines.append(f'COMMON /{block}/ ' + ','.join(here))
                names += here
        return lines, names

    def equivalences(self, names):
        """Some of a member of a block or a local scalar with a local."""
        lines = []
        for k in range(self.pick.choice([0, 0, 0, 1, 2])):
            held = self.pick.choice(names) if names and self.chance(.7) else f'IQ{k}'
            held = held.split('(')[0] + ('(1)' if '(' in held else '')
            other = self.pick.choice([f'IS{k}', f'IT{k}(1)', f'IT{k}(1)', f'IT{k}(2)'])
            if '(' in other:
                lines.append(f'INTEGER IT{k}({self.pick.randint(2, 4)})')
            lines.append(f'EQUIVALENCE ({held},{other})')
        return lines

    # ---- CALLs

    def actual(self, kind):
        return self.pick.choice(FITTING[kind if not self.chance(self.odd) else self.pick.choice(KINDS)])

    def actuals(self, kinds):
        texts = [self.actual(kind) for kind in kinds]
        if self.chance(self.odd):
            texts = texts[1:] if texts and self.chance(.5) else texts + ['K']
        return texts

    def call(self, name, kinds):
        texts = self.actuals(kinds)
        text = f'CALL {name}' + (f'({",".join(texts)})' if texts else '')
        kind = self.pick.random()
        if kind < .6:
            return line(text)
        if kind < .7:
            return line('IF (LS) ' + text)
        if kind < .85:
            return line('DO K=1,3') + line(text) + line('END DO')
        return line('IF (LS) THEN') + line('K=1') + line(self.pick.choice(['ELSE', 'ELSE IF (K.EQ.1) THEN'])) + line(text) + line('END IF')

    def body(self, subs, callable_):
        lines = []
        for _ in range(self.pick.randint(0, 3)):
            if callable_ and self.chance(.8):
                name = self.pick.choice(callable_)
                lines += self.call(name, subs.get(name, []))
            else:
                lines += line(self.pick.choice(['K=K+1', 'LS=K.GT.1', 'CONTINUE', 'KA(1)=K']))
        return lines

    # ---- modules

    def module(self, title, kinds, layouts, subs, callable_):
        dummies = [f'{"L" if kind in "lL" else "K"}{k}' for k, kind in enumerate(kinds)]
        arrays = [d + '(*)' for d, kind in zip(dummies, kinds) if kind in 'IL']
        lines = line(title + (f'({",".join(dummies)})' if dummies else '')) if title else []
        blocks, names = self.blocks(layouts)
        stated = LOCALS + ([f'DIMENSION {",".join(arrays)}'] if arrays else []) + blocks + self.equivalences(names)
        lines += [part for text in stated for part in line(text)]
        return lines + self.body(subs, callable_) + line('END')

    def names(self, count):
        return self.pick.sample(['S', 'T', 'U', 'V', 'W1', 'AB', 'Z9'], count)

    def program(self):
        self.odd = .04 if self.chance(.2) else 0
        layouts = self.layouts()
        names = self.names(self.pick.randint(0, 6))
        subs = {name: self.pick.choices(KINDS, k=self.pick.randint(0, 3)) for name in names}
        back = self.chance(.12)
        if self.chance(.04):
            names.append(self.pick.choice(names + ['P']))
        main = 'PROGRAM P' if self.chance(.8) else ''
        texts = [] if self.chance(.03) else [self.module(main, [], layouts, subs, names)]
        if self.chance(.04):
            texts.append(self.module('PROGRAM Q', [], layouts, subs, names))
        for k, name in enumerate(names):
            later = names if back else names[k + 1:]
            later = later + (['P'] if self.chance(.02) else []) + (['NONE'] if self.chance(.02) else [])
            texts.append(self.module(f'SUBROUTINE {name}', subs.get(name, []), layouts, subs, later))
        self.pick.shuffle(texts)
        return '\n'.join(part for text in texts for part in text) + '\n'


def many(count, mains, named):
    """So many small modules; those behind a number have one name."""
    texts = [line('PROGRAM P' if k == 0 else f'PROGRAM Q{k}') + line('END') for k in range(mains)]
    texts += [line(f'SUBROUTINE S{min(k, named)}') + (line(f'CALL S{k + 1}') if k + 1 < count - mains and k < named else []) + line('END')
              for k in range(count - mains)]
    return '\n'.join(part for text in texts for part in text) + '\n'


def whole(*modules):
    return '\n'.join(part for statements in modules for text in statements + ['END'] for part in line(text)) + '\n'


def by_hand():
    main = ['PROGRAM P', 'CALL S']
    return [
        # a chain of three modules, and round in a circle
        whole(['PROGRAM P', 'CALL A'], ['SUBROUTINE A', 'CALL B'], ['SUBROUTINE B', 'CALL C'], ['SUBROUTINE C']),
        whole(['PROGRAM P', 'CALL A'], ['SUBROUTINE A', 'CALL B'], ['SUBROUTINE B', 'CALL C'], ['SUBROUTINE C', 'CALL A']),
        whole(['SUBROUTINE C'], ['SUBROUTINE B', 'CALL C'], ['SUBROUTINE A', 'CALL C', 'CALL B'], ['PROGRAM P', 'CALL B', 'CALL A']),
        whole(main, ['SUBROUTINE S', 'CALL S']), whole(main, ['SUBROUTINE S', 'CALL P']), whole(['PROGRAM P', 'CALL P']),
        whole(['CALL MAIN']), whole(['SUBROUTINE MAIN'], ['K=1']), whole(['SUBROUTINE S']), '',
        many(65, 1, 999), many(256, 1, 999), many(257, 1, 999), many(257, 2, 999), many(257, 0, 999), many(257, 1, 7), many(65, 1, 7), many(65, 2, 999), many(65, 0, 999),
        # blocks in the order of their names, the blank one first; the largest size counts
        whole(['PROGRAM P', 'COMMON /ZZ/ I,J //K(3)', 'COMMON /A/ L'], ['SUBROUTINE S', 'COMMON /ZZ/ I(9) //K', 'COMMON /AB/ M']),
        # what untracks a unit: an array, a LOGICAL, an EQUIVALENCE, none here, another member that reaches it
        whole(['COMMON /B/ I,J,K', 'I=1'], ['SUBROUTINE S', 'COMMON /B/ I(2),K']), whole(['COMMON /B/ I,J', 'I=1'], ['SUBROUTINE S', 'LOGICAL J', 'COMMON /B/ I,J']),
        whole(['COMMON /B/ I,J', 'I=1'], ['SUBROUTINE S', 'COMMON /B/ I,J', 'EQUIVALENCE (J,K)']), whole(['COMMON /B/ I,J', 'I=1'], ['SUBROUTINE S', 'COMMON /B/ I']),
        whole(['COMMON /B/ I,J', 'INTEGER K(2)', 'EQUIVALENCE (I,K)', 'J=1']), whole(['COMMON /B/ I,J', 'INTEGER K(2)', 'EQUIVALENCE (I,K(1))', 'J=1']),
        whole(['EQUIVALENCE (I,J)', 'K=1']), whole(['INTEGER K(3)', 'EQUIVALENCE (I,K(2)),(J,M)', 'N=1']),
    ]

# Programs that are written short, and their graphs. `|` stands between modules: `*` for a main program, a letter for its name, its dummies, `=`, and its
# CALLs, each ended by `;`, the letter of what is called with its actuals. A dummy or an actual is `i` or `l`, a scalar, or `I` or `L`, an array; EXPRESSIONS has
# further actuals. A graph is its order and its CALLs, `P1S` for the first of P; a refusal is the place of the module, the line, the title's being 1 and each CALL's
# the next, and the code.
SHORT = [
    # none
    ('*P=', 'P'), ('*P=S;|S=', 'SP P1S'), ('S=|*P=S;', 'SP P1S'), ('*P=S;T;|S=|T=S;', 'STP P1S P2T T1S'), ('*P=|S=T;|T=', 'PTS S1T'),
    # each alone
    ('S=', '50'), ('S=|T=S;', '50'), ('*P=|*Q=', '1 1 51'), ('*P=|S=|*Q=|*R=', '2 1 51'), ('*P=|S=|T=|S=', '3 1 52'), ('*P=|P=', '1 1 52'), ('*P=S;', '0 2 53'),
    ('*P=S;T;|S=', '0 3 53'), ('*P=|S=T;', '1 2 53'), ('*P=P;', '0 2 53'), ('*P=S;|S=P;', '1 2 53'), ('*P=S;|Si=', '0 2 54'), ('*P=Si;|S=', '0 2 54'),
    ('*P=S;Si;Sii;|Si=|T=', '0 2 54'), ('*P=Si;Sii;|Si=', '0 3 54'), ('*P=Sl;|Si=', '0 2 55'), ('*P=S;|S=S;', '1 2 56'), ('*P=A;|A=B;|B=C;|C=A;', '1 2 56'),
    ('*P=A;|A=D;B;|B=D;C;|C=D;A;|D=', '1 3 56'), ('*P=|A=B;|B=A;|C=D;|D=C;', '1 2 56'), ('*P=A;|A=B;|B=C;|C=B;', '2 2 56'),
    # two at once: the earlier in the order of checks is refused
    ('*P=|*S=|S=', '2 1 52'), ('S=|S=', '1 1 52'), ('*P=X;|S=|S=', '2 1 52'), ('*P=Sl;|Si=|S=', '2 1 52'), ('*P=|S=S;|S=', '2 1 52'), ('*P=X;|*Q=', '1 1 51'),
    ('*P=S;|Si=|*Q=', '2 1 51'), ('*P=Sl;|Si=|*Q=', '2 1 51'), ('*P=|S=S;|*Q=', '2 1 51'), ('S=X;', '50'), ('S=T;|Ti=', '50'), ('S=Tl;|Ti=', '50'), ('S=S;', '50'),
    # of those at CALLs the first in the text, at one CALL the number of arguments before their types
    ('*P=X;S;|Si=', '0 2 53'), ('*P=S;X;|Si=', '0 2 54'), ('*P=Sl;S;|Si=', '0 2 55'), ('*P=Sil;|Sl=', '0 2 54'), ('*P=Pi;', '0 2 53'), ('*P=Q;|Q=X;|Ri=R;', '1 2 53'),
    # before recursion, though it stands later
    ('*P=A;|A=A;|B=X;', '2 2 53'), ('*P=A;|A=A;|B=Ai;', '2 2 54'), ('*P=|Ai=Ai;|B=Al;', '2 2 55'),
]
EXPRESSIONS = {'i': 'K', 'l': 'LS', 'I': 'KA', 'L': 'LA', 'e': 'KA(1)', 'm': 'LA(1)', 'n': 'NC', 'f': 'ABS(1)', '1': '1', 't': '.TRUE.', '(': '(K)', ')': '(LS)', '-': '-K',
               '!': '.NOT.LS', '+': 'K+K', '<': 'K.LT.K', '&': 'LS.AND.LS'}
# for each dummy the actuals that fit, and those that do not
ACTUALS = {'i': ('ie1n(-+f', 'lLImt)!<&'), 'l': ('lmt)!<&', 'iILe1n(-+f'), 'I': ('Ie', 'iLlmn1t()-!+<&f'), 'L': ('Lm', 'iIlen1t()-!+<&f')}


def short_module(text):
    """The lines of a module that is written short, how many of them are declarations, and its tracked cells where it links."""
    head, _, calls = text.partition('=')
    main, head = head.startswith('*'), head.lstrip('*')
    name, kinds = head[0], head[1:]
    dummies = [('L' if kind in 'lL' else 'K') + f'D{k}' for k, kind in enumerate(kinds)]
    calls = [call for call in calls.split(';') if call]
    actuals = [EXPRESSIONS[kind] for call in calls for kind in call[1:]]
    declared = ['IMPLICIT LOGICAL(L)'] if kinds or actuals else []
    declared += [f'DIMENSION {dummy}(1)' for dummy, kind in zip(dummies, kinds) if kind in 'IL']
    declared += ['DIMENSION KA(1),LA(1)', 'PARAMETER (NC=1)'] if actuals else []
    title = ('PROGRAM ' if main else 'SUBROUTINE ') + name + (f'({",".join(dummies)})' if dummies else '')
    stated = [f'CALL {call[0]}' + (f'({",".join(EXPRESSIONS[kind] for kind in call[1:])})' if call[1:] else '') for call in calls]
    cells = [dummy for dummy, kind in zip(dummies, kinds) if kind == 'i'] + (['K'] if any('K' in text.replace('KA', '') for text in actuals) else [])
    return [title] + declared + stated + ['END'], len(declared), ' '.join([f'cells {name}:'] + cells)


def short_program(text, want):
    """A program that is written short, and what must be printed of it."""
    modules = [short_module(part) for part in text.split('|')]
    program = '\n'.join(part for lines, _, _ in modules for text in lines for part in line(text)) + '\n'
    words = want.split()
    if not words[-1].isdigit():
        calls = [f'call {call[0]} {call[1:-1]} {call[-1]}' for call in words[1:]]
        return program, [' '.join(['order'] + list(words[0]))] + calls + [cells for _, _, cells in modules]
    if want == '50':
        return program, ['link 50']
    place, number, code = map(int, words)
    before = sum(len(lines) for lines, _, _ in modules[:place])
    return program, [f'link {place} {before + number + (modules[place][1] if number > 1 else 0)} {code}']


def short_programs():
    """Each row of the tables, with what must be printed of it."""
    rows = SHORT + [(f'*P=S{kind};|S{dummy}=', want) for dummy, lists in ACTUALS.items() for kinds, want in zip(lists, ('SP P1S', '0 2 55')) for kind in kinds]
    return [short_program(*row) for row in rows]


def shared_programs():
    """A unit at the end of a block in two modules: what must be printed of both."""
    rows = [('', 'KX', '', 'KX', 1, False), ('', 'KX', '', 'LX', 1, True), ('K1,K2,K3,', 'KX(1)', 'M1,M2,M3,', 'KX', 4, True), ('K1,K2,K3,', 'KX(1)', 'M1,M2,M3,', 'LX(1)', 4, False)]
    found = []
    for one, x, other, y, size, untracked in rows:
        statements = [['PROGRAM P', 'IMPLICIT LOGICAL(L)', f'COMMON /B/ {one}{x}', 'CALL S'], ['SUBROUTINE S', 'IMPLICIT LOGICAL(L)', f'COMMON /B/ {other}{y}']]
        cells = [[n for n in names.split(',') if n] + ([last] if last == 'KX' and not untracked else []) for names, last in ((one, x), (other, y))]
        want = ['order S P', 'call P 1 S', f'block /B/ {size}'] + ([f'untracked /B/+{size - 1}'] if untracked else [])
        found.append((whole(*statements), want + [' '.join(['cells P:'] + cells[0]), ' '.join(['cells S:'] + cells[1])]))
    return found


def function_programs():
    """Functions: the CALL of a reference is the second of its hidden statements, of which the first has the number 4097."""
    function, main = ['FUNCTION NF(K)', 'NF=K'], ['PROGRAM P', 'I=NF(1)']
    logical, none = ['LOGICAL FUNCTION NF(K)', 'NF=K.EQ.1'], ['FUNCTION NF()', 'NF=1']
    linked = [
        ([main, function], ['order NF P', 'call P 4098 NF', 'cells P: I NF', 'cells NF: K NF']),
        ([function, ['PROGRAM P', 'K=NF(2)', 'IF (K.EQ.1) K=NF(K)', 'CALL S'], ['SUBROUTINE S']],
         ['order NF S P', 'call P 4098 NF', 'call P 4101 NF', 'call P 4 S', 'cells NF: K NF', 'cells P: K NF', 'cells S:']),
        ([['PROGRAM P', 'DO WHILE (K.LT.9)', 'K=NF(K)', 'END DO', 'L=N0()'], ['FUNCTION N0()', 'N0=3'], function],
         ['order N0 NF P', 'call P 4099 NF', 'call P 4103 N0', 'cells P: K NF L N0', 'cells N0: N0', 'cells NF: K NF']),
    ]
    refused = [
        ([['PROGRAM P', 'CALL NF(1,J)'], function], 'link 0 2 53'), ([main, ['SUBROUTINE NF(K,L)', 'L=K']], 'link 0 2 53'), ([main], 'link 0 2 53'),
        ([['PROGRAM NMAIN', 'CALL S'], ['SUBROUTINE S', 'I=NMAIN(1)']], 'link 1 5 53'), ([main, none], 'link 0 2 54'), ([['PROGRAM P', 'I=NF()'], function], 'link 0 2 54'),
        ([['PROGRAM P', 'I=NF(1,2)'], none, ['SUBROUTINE S', 'CALL T']], 'link 0 2 54'), ([['PROGRAM P', 'I=NF(.TRUE.)'], function], 'link 0 2 55'), ([main, logical], 'link 0 2 55'),
        ([['PROGRAM P', 'LOGICAL NF,L', 'L=NF(1)'], function], 'link 0 3 55'), ([['PROGRAM P', 'INTEGER A(2)', 'I=NF(A)'], function], 'link 0 3 55'), ([main, ['FUNCTION NF(K)', 'INTEGER NF(2)', 'NF(1)=K']], 'link 0 2 55'),
        ([main, ['FUNCTION NF(K)', 'NF=NG(K)'], ['FUNCTION NG(K)', 'NG=NF(K)']], 'link 1 5 56'), ([main, ['FUNCTION NF(K)', 'CALL S(K)', 'NF=K'], ['SUBROUTINE S(K)', 'I=NF(K)']], 'link 1 5 56'),
        ([main, function, function], 'link 2 7 52'), ([['FUNCTION NF(K)', 'NF=K']], 'link 50'),
    ]
    return [(whole(*modules), want) for modules, want in linked] + [(whole(*modules), [want]) for modules, want in refused]


def graph_programs(count=300, seed=1):
    """Programs, each with the lines that must be printed of it, or None."""
    maker = Maker(seed)
    programs = by_hand()
    programs += [maker.program() for _ in range(count - len(programs))]
    wanted = dict(short_programs() + shared_programs() + function_programs())
    return list(wanted.items()) + [(program, None) for program in dict.fromkeys(programs) if program not in wanted]
