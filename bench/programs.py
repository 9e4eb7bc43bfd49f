"""Random programs in fixed form, which are mostly accepted."""
import random

# each with what stands before it, so that most of them are accepted
SPECIFICATIONS = [
    ([], 'IMPLICIT INTEGER(A-H,O-Z),LOGICAL(L)'), ([], 'IMPLICIT NONE'), ([], 'IMPLICIT INTEGER (A-A , C)'), ([], 'INTEGER A(10),B(0:5),I'),
    (['SUBROUTINE T(A)'], 'INTEGER A(10,*),C(-1:1)'), ([], 'LOGICAL L,M(3)'), (['SUBROUTINE T(D,N)', 'INTEGER D'], 'DIMENSION D(N,2*N+1)'),
    ([], 'PARAMETER (N=10,M=N+1)'), (['INTEGER X,Y,Z'], 'COMMON /B/ X,Y(3) /C/ Z'), (['IMPLICIT INTEGER(A-Z)'], 'COMMON A,B//C/D/E'),
    (['IMPLICIT INTEGER(A-Z)'], 'COMMON //A,/B/C,//D'), (['INTEGER A(3),B(3),C,D'], 'EQUIVALENCE (A(1),B(2)),(C,D)'),
    (['INTEGER A,B,C'], 'EQUIVALENCE (A,B,C)'), ([], 'SAVE'), (['INTEGER A,X,C', 'COMMON /B/ X'], 'SAVE A,/B/,C'), (['INTEGER A,B,C'], 'DATA A/1/,B,C/2*3/'),
    (['INTEGER A(2)', 'LOGICAL L'], 'DATA A(1),A(2)/-1,+2/ L/.TRUE./'), ([], 'DATA N/007/ M/0*1,2*.FALSE./'), (['LOGICAL M(3)'], 'DATA M/.TRUE.,2*.FALSE./'),
]
# what the statements below ask of their names, and the subroutines that they call
NAMES = ['IMPLICIT INTEGER(A-K,M-Z),LOGICAL(L)', 'INTEGER A(10),B(5,5),IF(3)']
CALLED = [['SUBROUTINE S', 'END'], ['SUBROUTINE T(D,N)', 'INTEGER D(N)', 'D(1)=N', 'END'], ['SUBROUTINE U(I,L)', 'LOGICAL L', 'IF (L) I=1', 'END']]
# the functions that they refer to, and some of the references, with a DO WHILE in one of them
FUNCTIONS = [
    ['FUNCTION NF(I,D)', 'INTEGER D(*)', 'NF=I+D(1)', 'END'], ['integer function n0 ( )', 'N0=4', 'END'], ['LOGICAL FUNCTION LF(I,L)', 'LOGICAL L', 'LF=L.AND.I.GT.2', 'END'],
    ['INTEGERFUNCTIONNG(I)', 'NG=0', 'DO WHILE (NG.LT.I)', 'NG=NG+1', 'END DO', 'RETURN', 'END'],
]
REFERENCES = ['I=NF(J,A)', 'A(I)=NF(I+1,A)', 'I=N0()', 'A ( 2 ) = N 0 ( )', 'L=LF(I,L)', 'LL = LF ( I+J , .TRUE. )', 'IF (L) I=NG(I)', 'IF(I.EQ.1)A(I)=N0()', 'K=NG(NA)', 'B(I,2)=NG(A(1))', 'k=nf(2,a(3))']
WHILES = ['I.LT.5', 'L', '.NOT.L.OR.I.GE.J', 'A(I).EQ.2', 'I.LT.5.AND.(J.GT.1)']
SIMPLE = [
    'I=1', 'I = I + 1', 'A(I)=A(I-1)+2*I', 'B(I,J+1)=A(B(1,2))', 'L=.NOT.(I.EQ.1).AND.J.LT.2.OR.L.EQV.LL', 'L=I+1.GE.2*J.NEQV..TRUE.',
    'L=.NOT.I.GT.J.AND..NOT.LL', 'I=-J**2**K+(3-4)/5*(6)', 'I=+I', 'I=2*(-3)', 'I=00012', 'L=1.EQ.2', 'L=(1.NE.2).OR.(I.LE.J)', 'CALL S',
    'CALL T(A,I+1)', 'CALL S()', 'CALL U(A(1),.TRUE.)', "CALL S('text')", 'CONTINUE', 'STOP', 'STOP 12', 'STOP 007', "STOP 'it''s'", 'PRINT *',
    "PRINT *,I,'A b',A(I)", 'print*,i', 'WRITE(*,*)I,J', 'WRITE(6,*) I', 'WRITE(*,*)', 'READ *,I,A(2)', 'READ(5,*)I', 'READ(*,*)', 'READ*',
    'IF(I)=3', 'DO10I=1', 'END=1', 'CALL=2', 'READ=3', 'PRINT=4', 'DATA=6', 'ELSE=7', 'GOTO=8', 'IF(A.EQ.B)THEN=5', "I='abc'",
    'IF (I.EQ.3) J=4', 'IF (L) PRINT *,I', 'IF (I.EQ.1) STOP 3', 'IF (I.EQ.1) CALL T(A,K)', 'IF (I.EQ.1) READ *,K', 'IF (I.EQ.1) CONTINUE',
    'IF (A(1).EQ.(2)) WRITE(*,*) \'x(=,y\'', 'do 1 0 i x = 3', 'I=MOD(I,3)+MAX(I,J,K)-ABS(K)',
    "PRINT *,'a long text that goes past the column seventy-two and on, with blanks   inside',I,'''',''",
    'PRINT *,' + ','.join(f'I+{k}*J' for k in range(30)),
]
# statements that are refused for the types of their parts
MISTYPED = ['IF(A.EQ.B)THEN=5', "I='abc'", "CALL S('text')"]
# specifications of names that no statement has
AGREEING = ['INTEGER Q(3,0:4),R', 'COMMON /C/ X,Y(3) //Z', 'PARAMETER (N1=10,N2=N1+1)', 'EQUIVALENCE (E1,E2)', 'DATA F1/007/ F2,F3/2*-3/', 'SAVE', 'SAVE G1']
# what makes a program that links one that does not: modules that are added
UNLINKING = [
    ['SUBROUTINE S', 'END'], ['PROGRAM Q', 'END'], ['SUBROUTINE R', 'CALL R', 'END'], ['SUBROUTINE R', 'CALL Q1', 'END', 'SUBROUTINE Q1', 'CALL R', 'END'],
    ['SUBROUTINE R', 'CALL S(1)', 'END'], ['SUBROUTINE R', 'CALL U(I)', 'END'], ['SUBROUTINE R', 'CALL U(1,2)', 'END'], ['SUBROUTINE R', 'CALL T(I,1)', 'END'],
    ['SUBROUTINE R', 'CALL Q2', 'END'], ['SUBROUTINE R', 'INTEGER J(2)', 'CALL T(J,J)', 'END'],
]
UNLINKING_FUNCTIONS = [
    ['FUNCTION N1(I)', 'N1=NG(I,2)', 'END'], ['SUBROUTINE R', 'I=NS(1)', 'END', 'SUBROUTINE NS(K,L)', 'END'], ['SUBROUTINE R', 'CALL NG(1,I)', 'END'], ['SUBROUTINE R', 'LOGICAL NG,L', 'L=NG(1)', 'END'],
    ['FUNCTION N1(I)', 'N1=N2(I)', 'END', 'FUNCTION N2(I)', 'N2=N1(I)', 'END'], ['SUBROUTINE R', 'I=N3(1)', 'END'], ['SUBROUTINE R', 'I=NG(.TRUE.)', 'END'], ['SUBROUTINE R', 'I=NF(1,I)', 'END'], ['FUNCTION NG(I)', 'END'],
]
COMMENTS = ['C a comment', '* star', 'c> kept, since it is small', 'C> dropped', 'C$OMP PARALLEL DO', '! bang', '', '   ', 'C' + 'x' * 80, '*\tTab']


def line(text, label=''):
    """A statement over as many lines as it needs, with its label."""
    pieces = [text[k:k + 66] for k in range(0, max(1, len(text)), 66)]
    return [f'{label:<6}' + pieces[0]] + ['     &' + piece for piece in pieces[1:]]


class Maker:
    """Random programs, of blocks that fit and labels that stand once, with a share of faults; with functions and DO WHILE where `functions` says so."""

    def __init__(self, seed, functions=False):
        self.pick = random.Random(seed)
        self.label = 0
        self.calls, self.functions = True, functions

    def chance(self, p):
        return self.pick.random() < p

    def new_label(self):
        self.label += self.pick.choice([1, 5, 10, 777])
        return self.label

    def comments(self):
        return [self.pick.choice(COMMENTS) for _ in range(self.pick.randint(1, 3))] if self.chance(.15) else []

    def is_unfit(self, text, ends):
        """Most statements that would be refused here are."""
        unfit = 'CALL ' in text and not self.calls or text in MISTYPED or ends and text.startswith('STOP')
        return unfit and not self.chance(.03)

    def simple(self, label='', ends=False):
        """A statement; `ends` says that it ends a DO, where some forms may not stand."""
        if not label and self.chance(.15):
            label = self.new_label()
        forms = REFERENCES if self.functions and self.calls and self.chance(.3) else SIMPLE
        text = self.pick.choice(forms)
        while self.is_unfit(text, ends):
            text = self.pick.choice(forms)
        if label and not ends and self.chance(.1):
            text = self.pick.choice(['GO TO ', 'goto', 'IF (L) GO TO ']) + str(label)
        return self.comments() + line(text, label)

    def block_if(self, depth):
        lines = line(self.pick.choice(['IF (I.GT.2) THEN', 'IF(L)THEN']), self.new_label() if self.chance(.1) else '') + self.body(depth)
        for _ in range(self.pick.choice([0, 0, 1, 2])):
            lines += self.comments() + line('ELSE IF (I.LT.4) THEN', self.new_label() if self.chance(.1) else '') + self.body(depth)
        if self.chance(.4):
            lines += self.comments() + line('ELSE', self.new_label() if self.chance(.1) else '') + self.body(depth)
        return lines + self.comments() + line(self.pick.choice(['END IF', 'ENDIF']), self.new_label() if self.chance(.15) else '')

    def loop(self, depth):
        head = self.pick.choice(['I=1,5', 'J=1,N,2', 'K=N,1,-1', 'I = A(1) , B(2,3)'])
        if self.chance(.5):
            label = self.new_label() if self.chance(.15) else ''
            return line('DO ' + head) + self.body(depth) + self.comments() + line(self.pick.choice(['END DO', 'ENDDO']), label)
        end = self.new_label()
        lines = line(f'DO {end}{self.pick.choice([" ", ", ", ""])}{head}')
        if self.chance(.3):
            lines += self.body(depth) + line(f'DO {end} M=1,2')
        return lines + self.body(depth) + self.simple(end, True)

    def do_while(self, depth):
        test = self.pick.choice(WHILES)
        label = self.new_label() if self.chance(.15) else ''
        if self.chance(.6):
            return line(self.pick.choice(['DO WHILE (%s)', 'do while(%s)', 'DOWHILE ( %s )']) % test, label) + self.body(depth) + self.comments() + line(self.pick.choice(['END DO', 'ENDDO']), self.new_label() if self.chance(.1) else '')
        end = self.new_label()
        lines = line(self.pick.choice(['DO %d WHILE (%s)', 'DO %d, WHILE(%s)', 'DO%dWHILE(%s)']) % (end, test), label)
        if self.chance(.3):
            lines += self.body(depth) + line(self.pick.choice(['DO %d M=1,2', 'DO %d WHILE (L)']) % end)
        return lines + self.body(depth) + self.simple(end, True)

    def body(self, depth):
        lines = []
        for _ in range(self.pick.randint(0, 4)):
            kind = self.pick.random()
            if depth > 0 and kind < .25:
                lines += self.block_if(depth - 1)
            elif depth > 0 and kind < .5:
                lines += self.do_while(depth - 1) if self.functions and self.chance(.5) else self.loop(depth - 1)
            else:
                lines += self.simple()
        return lines

    def specifications(self):
        """Those that most statements ask for, or any."""
        if self.chance(.9):
            lines = [part for text in NAMES for part in line(text)]
            return lines + (self.comments() + line(self.pick.choice(AGREEING)) if self.chance(.3) else [])
        lines = []
        for before, text in (self.pick.choice(SPECIFICATIONS) for _ in range(self.pick.choice([0, 1, 3]))):
            lines += self.comments() + line(text, 99999 if self.chance(.05) else '')
        return lines

    def module(self, title):
        called = title.startswith(('SUB', 'FUN', 'INTEGER', 'LOGICAL'))
        self.calls = not called
        lines = self.comments() + (line(title) if title else [])
        lines += self.specifications() + self.body(3)
        if called and self.chance(.3):
            lines += line('RETURN')
        return lines + self.comments() + line('END', self.new_label() if self.chance(.1) else '')

    def program(self):
        self.label = 0
        lines = self.module(self.pick.choice(['', 'PROGRAM P', 'program long_name_1']))
        for title in self.pick.sample(['SUBROUTINE V(A,N)', 'SUBROUTINE W', 'subroutine x ()'], self.pick.choice([0, 0, 1, 2])):
            self.label = 0
            lines += self.module(title)
        for title in self.pick.sample(['FUNCTION NV(A,N)', 'INTEGER FUNCTION W0()', 'LOGICAL FUNCTION LW(N)', 'function k()'], self.pick.choice([0, 0, 1, 2])) if self.functions else []:
            self.label = 0
            lines += self.module(title)
        for statements in CALLED + (FUNCTIONS if self.functions else []):
            lines += [part for text in statements for part in line(text)]
        for statements in self.pick.sample(UNLINKING + (UNLINKING_FUNCTIONS if self.functions else []), self.pick.choice([1, 1, 2])) if self.chance(.12) else []:
            lines += [part for text in statements for part in line(text)]
        lines += self.comments()
        if self.chance(.1):
            del lines[self.pick.randrange(len(lines))]
        if self.chance(.05):
            lines.insert(self.pick.randrange(len(lines)), self.pick.choice(['      ELSE', '      END', '     &+1', '      REAL X', '      I=(1']))
        return '\n'.join(lines) + '\n'


def random_programs(count, seed=1, functions=False):
    maker = Maker(seed, functions)
    return [(maker.pick.choice(['--show all', '--show bare', '--show why']), maker.program()) for _ in range(count)]
