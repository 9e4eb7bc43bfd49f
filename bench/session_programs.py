"""Scripts of sessions, by hand and random, of which crates/cases_sessions prints the answers."""
import random

KINDS = ['PARSED', 'LINES', 'SYMBOLS', 'CALLGRAPH', 'EFFECTS', 'TRANSFORMERS', 'PRECONDITIONS', 'REGIONS', 'IN_REGIONS', 'OUT_REGIONS', 'MARKS', 'PRINTED']
SHOWS = ['all', 'all', 'bare', 'why']
SUBROUTINES = ['S', 'T', 'U']
# statements of a module with the array A, the scalars I, J, K, N and M, and the block B of N and M
STATEMENTS = [
    ['K=1'], ['K=2'], ['K=K+1'], ['J=K+N'], ['N=3'], ['N=4'], ['M=N'], ['A(K)=0'], ['A(1)=N'], ['K=A(2)'], ['PRINT *,K'], ['IF (K.GT.1) K=1'],
    ['DO I=1,9', 'A(I)=I', 'END DO'], ['DO I=2,9', 'A(I)=A(I-1)+1', 'END DO'], ['DO I=1,N', 'A(I)=0', 'END DO'], ['DO I=1,5', 'K=A(I)', 'A(I)=K+1', 'END DO'],
    ['DO 10 I=1,9', 'A(I)=K', '10 CONTINUE'], ['IF (N.LE.2) THEN', 'K=5', 'ELSE', 'A(3)=K', 'END IF'], ['READ *,K'], ['READ *,A(4)'],
]
# texts that are refused, a line for each code
REFUSED = [
    ['I=1\x80', 'END'], ['\tI=1', 'END'], ['I=1\x01', 'END'], ['1A    I=1', 'END'], ['     &I=1', 'END'], ['I=1'] + ['     &+1'] * 20, ['I=1'], ['I=(1', 'END'], ['FORMAT (I3)', 'END'], ['I=1.5', 'END'], ['I=2147483648', 'END'],
    ['I' + 'J' * 31 + '=1', 'END'], ['DO I=1,2', 'END'], ['IF (I.GT.1) THEN', 'END'], ['ELSE', 'END'], ['SUBROUTINE Z', 'DO 10 I=1,2', '10 RETURN', 'END'], ['10 I=1', '10 I=2', 'END'],
    ['GO TO 10', 'END'], ['GO TO 10', 'DO I=1,2', '10 J=1', 'END DO', 'END'], ['I=' + '(' * 65 + '1' + ')' * 65, 'END'], ['X=1', 'END'], ['INTEGER I,I', 'END'],
    ['INTEGER A(0)', 'END'], ['PARAMETER (N=1/0)', 'END'], ['COMMON I,I', 'END'], ['INTEGER A(2)', 'EQUIVALENCE (A(1),A(2))', 'END'],
    ['COMMON /B/ I', 'INTEGER A(2)', 'EQUIVALENCE (I,A(2))', 'END'], ['DATA I/1,2/', 'END'], ['INTEGER A(2)', 'A(1,1)=0', 'END'], ['LOGICAL L', 'L=1', 'END'],
    ['PARAMETER (N=1)', 'N=2', 'END'], ['I(1)=2', 'END'], ['END', 'END'], ['PROGRAM P', 'END', 'SUBROUTINE P', 'END'], ['SUBROUTINE S', 'END', 'SUBROUTINE S', 'END'],
    ['SUBROUTINE Z%d' % k if part == 0 else 'END' for k in range(257) for part in (0, 1)],
]
BAD = ['frob', 'make', 'make MARKS', 'make MARKS P Q', 'show', 'show MARKS', 'show MARKS P 1', 'source', 'source X', 'source -1', 'source 12345678', 'source 1 2',
       'drop', 'drop P Q', 'print P', 'print all', 'printer', 'make\x00P', '"print"', 'so urce 1']


def line(text):
    """The lines of a statement, with its label; what begins with a blank or a tab, or like `1A`, is a line as it is."""
    label, _, rest = text.partition(' ')
    if text[:1] in ' \t' or text[:2] == '1A':
        return [text]
    whole = f'{label:<6}{rest}' if label.isdigit() else '      ' + text
    return [whole[:72]] + ['     &' + whole[k:k + 66] for k in range(72, len(whole), 66)]


def lines(statements):
    return [part for text in statements for part in line(text)]


def source(found):
    return [f'source {len(found)}'] + found


def some_modules(first, end):
    """A source of empty subroutines."""
    return source(lines(text for k in range(first, end) for text in [f'SUBROUTINE M{k}', 'END']))


class Maker:
    """A random session of a main program and some subroutines that change."""

    def __init__(self, seed):
        self.pick = random.Random(seed)
        self.versions = {}      # name -> the texts that it had, the present one last

    def chance(self, p):
        return self.pick.random() < p

    # ---- modules

    def calls(self, name):
        """CALLs, of later subroutines but for a few, most with the arguments that are wanted."""
        later = SUBROUTINES[SUBROUTINES.index(name) + 1:] if name in SUBROUTINES else SUBROUTINES
        found = [callee for callee in later if self.chance(.6)]
        if self.chance(.02):
            found.append(self.pick.choice(SUBROUTINES + ['Q']))
        return [f'CALL {callee}(A' + (',' + self.pick.choice(['K', '7', 'K+1', 'N']) if not self.chance(.01) else '') + ')' for callee in found]

    def module(self, name):
        head = ['PROGRAM P'] if name == 'P' else [f'SUBROUTINE {name}(A,K)']
        head += ['INTEGER A(10)'] + (['COMMON /B/ N,M'] if self.chance(.7) else ['COMMON /B/ L(2)'] if self.chance(.15) else [])
        body = [self.pick.choice(STATEMENTS) for _ in range(self.pick.randint(1, 4))] + [[call] for call in self.calls(name)]
        self.pick.shuffle(body)
        labelled = [part for part in body if part[-1].startswith('10 ')]
        body = [part for part in body if part not in labelled[1:]]
        return lines(head + [text for part in body for text in part] + ['END'])

    def changed(self, text):
        """The same with another comment, constant, statement or case."""
        kind = self.pick.random()
        at = self.pick.randrange(2, len(text))
        if kind < .25:
            return text[:at] + ['C another comment'] + text[at:]
        if kind < .5:
            return text[:at] + lines(self.pick.choice(STATEMENTS[:12])) + text[at:]
        if kind < .75:
            return [part.replace('=1', '=2') if part[6:8] != 'DO' else part for part in text]
        return [part.lower() for part in text]

    def version(self, name):
        """A text of a module: an earlier one again, one that is a little other, or a new one."""
        held = self.versions.setdefault(name, [])
        kind = self.pick.random()
        if held and kind < .25:
            text = held[-1]
        elif len(held) > 1 and kind < .5:
            text = self.pick.choice(held)
        elif held and kind < .8:
            text = self.changed(held[-1])
        else:
            text = self.module(name)
        held.append(text)
        return text

    # ---- commands

    def name(self):
        return self.pick.choice(['P', 'P', 'S', 'T', 'U', 'p', 's'] + (['Q', '*'] if self.chance(.2) else []))

    def words(self, text):
        text = text.lower() if self.chance(.3) else text
        return self.pick.choice(['', '', ' ', '\t']) + text.replace(' ', self.pick.choice([' ', ' ', '  ', ' \t'])) + self.pick.choice(['', '', ' '])

    def asked(self, word, kinds):
        kind = self.pick.choice(kinds) if not self.chance(.04) else 'MARK'
        name = '*' if kind == 'CALLGRAPH' and not self.chance(.2) else self.name()
        return [self.words(f'{word} {kind} {name}')]

    def refused(self):
        return source(lines(self.pick.choice(REFUSED[:-1])))

    def command(self):
        kind = self.pick.random()
        if kind < .3:
            names = self.pick.sample(['P'] + SUBROUTINES, self.pick.choice([1, 1, 1, 2, 3]))
            return source([part for name in names for part in self.version(name)])
        if kind < .55:
            return self.asked('make', KINDS[3:] if self.chance(.8) else KINDS)
        if kind < .75:
            return self.asked('show', KINDS[4:] if self.chance(.9) else KINDS)
        if kind < .83:
            return [self.words('print')]
        if kind < .88:
            return ['drop ' + self.name()]
        if kind < .92:
            return self.refused()
        if kind < .95:
            return [self.pick.choice(BAD)]
        if kind < .97:
            return self.pick.choice([[''], [' \t '], source([]), source(['C a comment alone'])])
        return [self.words('make CALLGRAPH *')]

    def session(self, count):
        first = source([part for name in ['P'] + SUBROUTINES for part in self.version(name)])
        commands = [first if self.chance(.9) else self.command()] + [self.command() for _ in range(count - 1)]
        text = [part for command in commands for part in command]
        if self.chance(.1):
            text.append(f'source {self.pick.randint(1, 9)}')
        ending = '\r\n' if self.chance(.1) else '\n'
        return ending.join(text) + (ending if self.chance(.9) else '')


# ---- by hand

P1 = lines(['PROGRAM P', 'N=1', 'CALL S(N)', 'END'])
P2 = lines(['PROGRAM P', 'N=2', 'CALL S(N)', 'END'])
S1 = lines(['SUBROUTINE S(K)', 'I=K', 'END'])
S2 = lines(['SUBROUTINE S(K)', 'K=K+1', 'END'])


def by_hand():
    """Scripts, each as lines."""
    both = source(P1 + S1)
    yield []
    yield ['print']
    yield both + ['print', 'print']
    # a caller changes, and comes back; the same text again; a comment; a callee changes
    yield both + ['make PRECONDITIONS S'] + source(P2) + ['make PRECONDITIONS P'] + source(P1) + ['make PRECONDITIONS S', 'print']
    yield both + ['make PRECONDITIONS S'] + source(P1) + ['make PRECONDITIONS S'] + source(S1) + ['make PRINTED S', 'show PRECONDITIONS S']
    yield both + ['print'] + source(P1[:1] + ['C remark'] + P1[1:]) + ['print'] + source(P1) + ['print']
    yield both + ['print'] + source(S2) + ['print'] + source(S1) + ['print']
    # modules that go and come again, in another order
    yield both + ['print', 'drop P', 'print'] + source(P1) + ['print', 'drop S', 'print', 'make SYMBOLS P', 'make MARKS P'] + source(S1) + ['print']
    yield both + ['drop S', 'drop S', 'drop s', 'DROP Q', 'drop *', 'make PARSED S', 'drop P', 'print', 'make CALLGRAPH *']
    # each kind made and shown
    yield both + [f'make {kind} {"*" if kind == "CALLGRAPH" else "S"}' for kind in KINDS] + [f'show {kind} {"*" if kind == "CALLGRAPH" else "S"}' for kind in KINDS]
    yield both + [f'show {kind} {name}' for kind in KINDS + ['X'] for name in ['P', '*', 'Q']]
    # words
    yield both + ['', ' ', '\t', 'PRINT', ' Print ', '\tprint\t', 'make\tprinted\ts', 'ShOw  MaRkS  p'] + BAD + ['print']
    # sources: nothing, comments alone, no main program, too short
    yield source([]) + ['print'] + source(['C nothing', '', '     ']) + ['print'] + source(S1) + ['print', 'make PARSED S', 'show EFFECTS S', 'drop S', 'print']
    yield both + ['source 0000001', '      END', 'source 0', 'print', 'source 9', '      END']
    yield both + ['source 1']
    # a text of a source with CRs; a module whose text goes on to the end of the source
    yield source([part + '\r' for part in P1]) + source(S1 + ['C after the last END', '']) + ['print', 'show LINES S'] + source(['C before'] + P1) + ['print']
    # modules that do not link
    for text in [lines(['PROGRAM P', 'CALL Q', 'END']), lines(['PROGRAM P', 'CALL S', 'END']) + S1, lines(['PROGRAM P', 'LOGICAL L', 'CALL S(L)', 'END']) + S1,
                 P1 + lines(['SUBROUTINE S(K)', 'CALL T', 'END', 'SUBROUTINE T', 'CALL S(1)', 'END']), S1]:
        yield source(text) + ['make PARSED S', 'make SYMBOLS P', 'make EFFECTS S', 'show MARKS S', 'show LINES S', 'print', 'make CALLGRAPH *', 'make CALLGRAPH P', 'make MARKS R']
    yield both + source(lines(['PROGRAM Q', 'I=1', 'END'])) + ['print', 'make MARKS P', 'show PRINTED Q', 'drop P', 'print', 'drop S', 'print']
    # 256 modules, and one more, until one of them is dropped
    yield both + some_modules(0, 254) + ['make CALLGRAPH *'] + some_modules(254, 255) + ['make CALLGRAPH *', 'drop M0', 'make CALLGRAPH *', 'make MARKS M254']
    # each code of a text
    for text in REFUSED:
        yield both + source(lines(text)) + ['make CALLGRAPH *']
    # layouts of a block
    block = lines(['PROGRAM P', 'COMMON /B/ N', 'N=1', 'PRINT *,N', 'END', 'SUBROUTINE S', 'COMMON /B/ K(2)', 'K(1)=5', 'END'])
    yield source(block) + ['show PRECONDITIONS P', 'drop S', 'show PRECONDITIONS P', 'print']


def sessions(count, seed=1):
    """Pairs of what is shown and a script as bytes."""
    for number, script in enumerate(by_hand()):
        yield SHOWS[number % 4], (''.join(part + '\n' for part in script)).encode('latin-1')
    for number in range(count):
        maker = Maker(seed * 1000 + number)
        yield maker.pick.choice(SHOWS), maker.session(30).encode('latin-1')
