"""Texts of modules that become a little other: what somebody does between two runs with a base, or between two commands of a session."""
import random
import re

from agreement import header_of, modules_of
from session_programs import Maker

# words that are no names of variables
KEYWORDS = set('''ABS AND CALL COMMON CONTINUE DATA DIMENSION DO ELSE END ENDDO ENDIF EQ EQUIVALENCE EQV FALSE FUNCTION GE GO GOTO GT IABS IF IMPLICIT INTEGER LE LOGICAL LT MAX MAX0 MIN MIN0 MOD NE
NEQV NONE NOT OR PARAMETER PRINT PROGRAM READ RETURN SAVE STOP SUBROUTINE THEN TO TRUE WHILE WRITE'''.split())
NAME = re.compile(r'[A-Z][A-Z0-9_]*')
LAYOUTS = ['N,M', 'N,M', 'M,N', 'L(2)', 'N', 'N,M,K9', 'N,L(3)']


def is_comment(line):
    return line[:1] in ('C', 'c', '*', '!', '')


def statement_lines(lines):
    return [k for k, line in enumerate(lines) if not is_comment(line)]


def comment_is_added(pick, lines):
    lines.insert(pick.randrange(len(lines)), pick.choice(['C another comment', '* star', 'c> small', '', '! bang', 'C> P {1<=K}']))


def comment_is_dropped(pick, lines):
    comments = [k for k, line in enumerate(lines) if is_comment(line)]
    if comments:
        del lines[pick.choice(comments)]


def case_is_changed(pick, lines):
    lines[:] = [line.lower() if line.isupper() else line.upper() for line in lines]


def blanks_are_added(pick, lines):
    at = pick.choice(statement_lines(lines))
    if len(lines[at]) < 60:
        lines[at] += ' ' * pick.randint(1, 9)


def number_is_changed(pick, lines):
    """Another number in a statement: a constant, a bound, an actual of a CALL."""
    found = [(k, m) for k in statement_lines(lines) for m in re.finditer(r'(?<![A-Z0-9_])[0-9]+', lines[k][6:72])]
    if found:
        k, m = pick.choice(found)
        number = str(max(0, int(m[0]) + pick.choice([-1, 1, 1, 2, 5])))
        lines[k] = lines[k][:6] + lines[k][6:][:m.start()] + number + lines[k][6:][m.end():]


def actual_is_changed(pick, lines):
    """Another last actual of a CALL."""
    calls = [k for k, line in enumerate(lines) if re.search(r'CALL \w+\(.*,\w+\)$', line)]
    if calls:
        at = pick.choice(calls)
        lines[at] = re.sub(r',\w+\)$', f',{pick.choice(["1", "2", "7", "9", "K", "N"])})', lines[at])


def name_is_changed(pick, lines):
    """A variable has another name, everywhere in the module."""
    names = sorted({name for k in statement_lines(lines) for name in NAME.findall(lines[k][6:]) if name not in KEYWORDS and not re.match('(S|T|U|P|B)[0-9]*$', name)})
    if names:
        name = pick.choice(names)
        other = name + pick.choice(['9', '8', 'X'])
        lines[:] = [line if is_comment(line) or len(line) > 66 else line[:6] + re.sub(rf'(?<![A-Z0-9_]){name}(?![A-Z0-9_])', other, line[6:]) for line in lines]


def block_is_laid_out_otherwise(pick, lines):
    for k, line in enumerate(lines):
        if 'COMMON /B/' in line:
            lines[k] = '      COMMON /B/ ' + pick.choice(LAYOUTS)


def line_comes_twice(pick, lines):
    at = pick.choice(statement_lines(lines))
    lines.insert(at, lines[at])


def line_is_dropped(pick, lines):
    if len(lines) > 2:
        del lines[pick.randrange(1, len(lines) - 1)]


# those that leave most results of other modules as they were stand more often
CHANGES = [
    comment_is_added, comment_is_added, comment_is_dropped, case_is_changed, blanks_are_added, number_is_changed, number_is_changed, number_is_changed, actual_is_changed, actual_is_changed,
    name_is_changed, name_is_changed, block_is_laid_out_otherwise, line_comes_twice, line_is_dropped,
]


def changed(pick, lines):
    """Another text of a module."""
    other = list(lines)
    pick.choice(CHANGES)(pick, other)
    return other


class Changes(Maker):
    """Random sessions whose modules change in more ways."""

    def changed(self, text):
        return changed(self.pick, text) if self.chance(.6) else super().changed(text)


class Program:
    """A program as its modules in order, which changes from run to run; what a module was before may come back."""

    def __init__(self, pick, modules):
        self.pick, self.modules = pick, [list(lines) for lines in modules]
        self.before, self.dropped = [[list(lines)] for lines in modules], []

    def text(self):
        return ''.join(line + '\n' for lines in self.modules for line in lines)

    def change_one(self):
        at = self.pick.randrange(len(self.modules))
        self.modules[at] = self.pick.choice(self.before[at]) if self.pick.random() < .25 else changed(self.pick, self.modules[at])
        self.before[at].append(self.modules[at])

    def reorder(self):
        order = list(range(len(self.modules)))
        self.pick.shuffle(order)
        self.modules, self.before = [self.modules[k] for k in order], [self.before[k] for k in order]

    def drop_one(self):
        """Mostly a module that no other calls."""
        called = set(re.findall(r'(?:CALL |=)(\w+)', self.text()))
        free = [at for at, name in enumerate(names_of(self)) if name != 'P' and (name not in called or self.pick.random() < .1)]
        if free:
            at = self.pick.choice(free)
            self.dropped.append((self.modules.pop(at), self.before.pop(at)))

    def add_one(self):
        if self.dropped:
            lines, before = self.dropped.pop()
        else:
            lines = [f'      SUBROUTINE M{self.pick.randrange(4)}', '      COMMON /B/ ' + self.pick.choice(LAYOUTS), '      N=2', '      END']
            before = [lines]
        at = self.pick.randrange(len(self.modules) + 1)
        self.modules.insert(at, lines)
        self.before.insert(at, before)

    def step(self):
        """One change, or two, or none."""
        for _ in range(self.pick.choice([0, 1, 1, 1, 2])):
            self.pick.choice([self.change_one] * 5 + [self.reorder, self.drop_one, self.add_one])()


def made_program(seed):
    """A program of a main module and subroutines, in chains of CALLs and with a block that they share."""
    maker = Changes(seed)
    names = ['P', 'S', 'T', 'U'][:maker.pick.choice([2, 3, 4, 4])]
    others = tuple(f'      CALL {name}' for name in 'STUQ' if name not in names)
    return Program(maker.pick, [[line for line in maker.module(name) if not line.startswith(others)] for name in names])


def random_program(programs, seed):
    """A program of the reference's random ones."""
    pick = random.Random(seed)
    lines = programs.make(seed, pick.choice(['tiny', 'sums', 'refs', 'small', 'calls', 'common', 'saved', 'functions']))[0].split('\n')[:-1]
    return Program(pick, modules_of(lines))


def names_of(program):
    """The names of the modules, as far as their first lines show them."""
    for lines in program.modules:
        found = header_of(lines)
        yield found[1] if found else 'P'
