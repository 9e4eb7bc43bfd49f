"""Programs by hand and random, of which crates/cases_programs prints the effects."""
import random

BY_HAND = [
    # every form
    ['PROGRAM P', 'INTEGER A(10),B(5,5)', 'LOGICAL L', 'PARAMETER (N=3)', 'I=J+N', 'A(I+N)=B(I,A(J))*MOD(K,N)', 'L=I.LT.J.OR..NOT.L', 'GO TO 10', '10 CONTINUE',
     'IF (L) J=A(I)', 'IF (I.GT.N) THEN', 'J=1', 'ELSE IF (A(K).EQ.2) THEN', 'K=J', 'ELSE', 'PRINT *,I,A(J)', 'END IF', 'DO I=J,K+N,A(1)', 'A(I)=M', 'END DO',
     'DO 20 J=1,10', '20 READ *,I,A(K),B(I,J)', 'READ *', "PRINT *,'TEXT'", 'IF (L) STOP 3', 'STOP', 'END'],
    # a RETURN, and a summary of dummies, COMMON and saved locals alone
    ['END', 'SUBROUTINE S(I,X,N)', 'INTEGER X(N,2)', 'COMMON /B/ K,M(3) //Z9', 'INTEGER Z9', 'SAVE J', 'DATA L1/1/', 'INTEGER L1', 'I=J+L1', 'X(I,1)=K+N9', 'M(2)=Z9', 'RETURN',
     'END'],
    # calls three deep, with a saved local of the third module
    ['CALL S(I)', 'END', 'SUBROUTINE S(K)', 'CALL T(K,3)', 'END', 'SUBROUTINE T(M,N)', 'CALL U(M+N)', 'M=N', 'END', 'SUBROUTINE U(J)', 'SAVE I', 'I=I+J', 'END'],
    # layouts of a block that differ in type, rank, bounds and offset
    ['COMMON /B/ I,J,A(2,2),L,M', 'INTEGER A', 'LOGICAL L', 'CALL S', 'CALL T', 'CALL U', 'END', 'SUBROUTINE S', 'COMMON /B/ I,J,A(2,2),L,M', 'INTEGER A', 'LOGICAL L',
     'I=J', 'A(1,1)=M', 'L=.TRUE.', 'END', 'SUBROUTINE T', 'COMMON /B/ L,J(2),A(3),N,M', 'INTEGER A', 'LOGICAL L', 'L=.TRUE.', 'J(1)=A(2)+N', 'M=1', 'END', 'SUBROUTINE U',
     'COMMON /B/ I,J,B(0:1,2)', 'INTEGER B', 'B(0,1)=B(1,1)', 'END'],
    # bounds by constants of each module
    ['PARAMETER (N=3)', 'COMMON /B/ K(N),M(2:N+1)', 'CALL S', 'END', 'SUBROUTINE S', 'PARAMETER (M=2)', 'COMMON /B/ J(M+1),I(M:4)', 'J(1)=I(2)', 'END'],
    # a block that the caller has not
    ['CALL S', 'END', 'SUBROUTINE S', 'COMMON /B/ I //J', 'CALL T', 'END', 'SUBROUTINE T', 'COMMON /C/ K /B/ N', 'N=K', 'END'],
    # two symbols at one place by EQUIVALENCE: the first
    ['COMMON /B/ I', 'EQUIVALENCE (J,I)', 'CALL S', 'J=1', 'END', 'SUBROUTINE S', 'COMMON /B/ N', 'EQUIVALENCE (N,M)', 'M=N', 'END'],
    # expressions as actuals
    ['PARAMETER (N=1)', 'CALL S(I+J,N,(K),-M,3)', 'CALL S(MOD(I,J),I,J,K,MAX(M,N))', 'END', 'SUBROUTINE S(A,B,C,D,E)', 'IMPLICIT INTEGER(A-E)', 'A=B', 'C=D', 'E=A', 'END'],
    # elements as actuals, of scalars and of arrays
    ['INTEGER A(9)', 'CALL S(A(I+A(J)),A(K),A)', 'END', 'SUBROUTINE S(I,X,Y)', 'INTEGER X(3),Y(*)', 'I=X(1)', 'Y(I)=2', 'END'],
    # one actual for two dummies
    ['CALL S(I,I,J)', 'END', 'SUBROUTINE S(K,L,M)', 'INTEGER L', 'PRINT *,K+L', 'M=1', 'END'],
    # adjustable bounds
    ['INTEGER A(9)', 'COMMON /B/ M', 'CALL S(A,3,K)', 'END', 'SUBROUTINE S(X,N,K)', 'COMMON /B/ M', 'PARAMETER (J=2)', 'INTEGER X(N:M*J),Y(J)', 'Y(1)=1', 'END'],
    # STOP, READ and PRINT in callees
    ['IF (I.EQ.1) CALL S', 'DO I=1,2', 'CALL T', 'END DO', 'CALL U', 'END', 'SUBROUTINE S', 'IF (I.EQ.1) STOP', 'END', 'SUBROUTINE T', 'PRINT *', 'END', 'SUBROUTINE U',
     'READ *,J', 'CALL S', 'CALL T', 'END'],
    # saved locals of modules whose names begin alike, in the order of what is written
    ['CALL S1', 'CALL S', 'CALL SA', 'END', 'SUBROUTINE S1', 'SAVE X,Y', 'INTEGER X,Y', 'X=Y', 'END', 'SUBROUTINE S', 'SAVE', 'INTEGER X,X1', 'X=X1', 'END', 'SUBROUTINE SA',
     'COMMON //I /A1/J /A/K', 'DATA M/1/', 'I=J+K+M', 'END'],
    # a saved local of the called module in storage with another
    ['CALL S', 'END', 'SUBROUTINE S', 'EQUIVALENCE (I,J)', 'SAVE I', 'J=1', 'K=J', 'END'],
    # a local array and a scalar with an intrinsic's name
    ['INTEGER ABS(3)', 'I=ABS(MIN(I,J))', 'CALL S(MOD(I,2),ABS(I))', 'END', 'SUBROUTINE S(I,J)', 'I=J', 'END'],
    # ten symbols and more
    ['COMMON /B/ I1,I2,I3,I4,I5,I6,I7,I8,I9,I10,I11,I12', 'CALL S', 'END', 'SUBROUTINE S', 'COMMON /B/ J1,J2,J3,J4,J5,J6,J7,J8,J9,J10,J11,J12', 'J12=J2+J10', 'J3=J1', 'END'],
]


class Maker:
    """A random program: modules that call later ones, COMMON in layouts of their own, locals that are saved or not."""

    def __init__(self, seed):
        self.r = random.Random(f'effects {seed}')

    def program(self):
        r = self.r
        count = r.choice([1, 2, 3, 3, 4])
        self.dummies = [[r.choice(['I', 'I', 'L', 'A', 'A*', 'AN']) for _ in range(r.randrange(4))] for _ in range(count)]
        self.dummies = [ds + ['I'] if 'AN' in ds else ds for ds in self.dummies]
        text = []
        for k in range(-1, count):
            text += self.module(k, count)
        return text

    def module(self, k, count):
        r = self.r
        names = [f'{"N" if d == "I" else "Q" if d == "L" else "X"}{n}' for n, d in enumerate(self.dummies[k])] if k >= 0 else []
        self.ints = ['I', 'J'] + [x for x in names if x[0] == 'N']
        self.logs = ['L'] + [x for x in names if x[0] == 'Q']
        self.arrays = [(x, 1) for x in names if x[0] == 'X']
        out = [f'SUBROUTINE S{k}({",".join(names)})' if names else f'SUBROUTINE S{k}'] if k >= 0 else []
        out.append('LOGICAL ' + ','.join(self.logs))
        for x, d in zip(names, self.dummies[k] if k >= 0 else []):
            if d in ('A', 'A*', 'AN'):
                out.append(f'INTEGER {x}({dict(A="5")[d] if d == "A" else "*" if d == "A*" else r.choice(["", "0:", "K:"]) + names[-1] + r.choice(["", "+2", "*M"])})')
        if any('K' in x.split(',')[0] or '*M' in x for x in out):
            out.append('COMMON /Z/ K,M')
        for block in ['', 'B', 'C']:
            if r.random() < 0.5:
                out += self.common(block)
        if r.random() < 0.4:
            out.append('INTEGER W(3),V(2,2)')
            self.arrays += [('W', 1), ('V', 2)]
        if r.random() < 0.4:
            out.append(r.choice(['SAVE', 'SAVE I', 'DATA I/1/', 'DATA J/1/,L/.TRUE./', 'EQUIVALENCE (I,J)', 'SAVE J,L']))
        if r.random() < 0.3:
            out.append('PARAMETER (NP=4)')
            self.constants = ['NP']
        else:
            self.constants = []
        self.k, self.count, self.label = k, count, 10
        out += self.list(r.randrange(1, 5), 0)
        if k >= 0 and r.random() < 0.2:
            out.append('RETURN')
        return out + ['END']

    def common(self, block):
        r = self.r
        members, declared = [], []
        for n in range(r.randrange(1, 5)):
            x = f'{"T" if r.random() < 0.2 else "K"}{block}{n}'
            shape = r.choice(['', '', '', '(2)', '(2)', '(0:1)', '(2,2)'])
            members.append(x + shape)
            if x[0] == 'T':
                declared.append(f'LOGICAL {x}')
                if not shape:
                    self.logs.append(x)
            elif shape:
                self.arrays.append((x, 2 if ',' in shape else 1))
            else:
                self.ints.append(x)
        return [f'COMMON /{block}/ ' + ','.join(members)] + declared

    def list(self, count, depth):
        return [s for _ in range(count) for s in self.statement(depth)]

    def element(self, depth=0):
        x, rank = self.r.choice(self.arrays)
        return f'{x}({",".join(self.int(depth + 1) for _ in range(rank))})'

    def left(self):
        return self.element() if self.arrays and self.r.random() < 0.4 else self.r.choice(self.ints)

    def int(self, depth=0):
        r = self.r
        kind = r.random()
        if depth > 2 or kind < 0.4:
            return r.choice(self.ints + self.constants + ['1', '2'])
        if kind < 0.6 and self.arrays:
            return self.element(depth)
        if kind < 0.7:
            return f'MOD({self.int(depth + 1)},{self.int(depth + 1)})'
        if kind < 0.8:
            return f'({self.int(depth + 1)})'
        return f'{self.int(depth + 1)}{r.choice("+-*")}{self.int(depth + 1)}'

    def log(self):
        r = self.r
        return r.choice([r.choice(self.logs), f'{self.int(1)}{r.choice([".EQ.", ".LT.", ".GE."])}{self.int(1)}', f'.NOT.{r.choice(self.logs)}'])

    def actual(self, dummy):
        r = self.r
        if dummy == 'I':
            return r.choice([self.int(1), r.choice(self.ints), self.left()])
        if dummy == 'L':
            return r.choice([r.choice(self.logs), '.TRUE.', self.log()])
        return r.choice([r.choice(self.arrays)[0], self.element()])

    def call(self):
        r = self.r
        callee = r.randrange(self.k + 1, self.count)
        dummies = self.dummies[callee]
        if any(d[0] == 'A' for d in dummies) and not self.arrays:
            return 'CONTINUE'
        return f'CALL S{callee}' + (f'({",".join(self.actual(d) for d in dummies)})' if dummies else '')

    def simple(self):
        r = self.r
        kind = r.randrange(12)
        if kind < 5 and self.k + 1 < self.count:
            return self.call()
        if kind < 8:
            return f'{self.left()}={self.int()}'
        if kind == 8:
            return f'{r.choice(self.logs)}={self.log()}'
        if kind == 9:
            return f'PRINT *,{self.int()}'
        if kind == 10:
            return f'READ *,{self.left()},{self.left()}'
        return r.choice(['CONTINUE', 'STOP', 'STOP 7'])

    def statement(self, depth):
        r = self.r
        kind = r.randrange(10)
        if kind < 6 or depth > 2:
            return [self.simple()]
        if kind == 6:
            return [f'IF ({self.log()}) {self.simple()}']
        if kind == 7:
            out = [f'IF ({self.log()}) THEN'] + self.list(r.randrange(0, 3), depth + 1)
            if r.random() < 0.4:
                out += [f'ELSE IF ({self.log()}) THEN'] + self.list(r.randrange(0, 2), depth + 1)
            if r.random() < 0.5:
                out += ['ELSE'] + self.list(r.randrange(0, 2), depth + 1)
            return out + ['END IF']
        if kind == 8:
            self.label += 1
            return [f'IF ({self.log()}) GO TO {self.label}', self.simple(), f'{self.label} CONTINUE']
        head = f'DO {r.choice(self.ints)}={self.int(1)},{self.int(1)}' + (f',{self.int(1)}' if r.random() < 0.3 else '')
        return [head] + self.list(r.randrange(1, 3), depth + 1) + ['END DO']


# Modules that call one another in a chain of W, behind the CALL the variables in the order in which they are printed: own ones by number, blocks, saved locals.
ORDERED = (['CALL T(I,J,K,L,M,N,I1,I2,I3,I4)', 'END', 'SUBROUTINE T(I1,I2,I3,I4,I5,I6,I7,I8,I9,I10)', 'CALL W(I10,I2,I1)', 'END',
            'SUBROUTINE W(I,J,K)', 'COMMON /BB/ M5 /BAB/ M4 /BA1/ M3 /BA/ M2 //M1', 'I=J+K+M1+M2+M3+M4+M5', 'CALL S', 'CALL S1', 'CALL AB', 'CALL A', 'END',
            'SUBROUTINE A', 'SAVE IX', 'J=IX', 'END', 'SUBROUTINE AB', 'SAVE IC', 'J=IC', 'END', 'SUBROUTINE S1', 'SAVE IX', 'J=IX', 'END',
            'SUBROUTINE S', 'SAVE IA,IX,IX1', 'J=IX1+IA+IX', 'END'],
           ['1 all reads I1 I2 // /BA/ /BA1/ /BAB/ /BB/ A:IX AB:IC S1:IX S:IA S:IX S:IX1 writes I10'])


def effect_programs(count):
    """Statements of programs, each with lines that must be printed of it."""
    yield ORDERED
    for statements in BY_HAND:
        yield statements if statements[-1] == 'END' else statements + ['END'], []
    for seed in range(len(BY_HAND), count):
        yield Maker(seed).program(), []
