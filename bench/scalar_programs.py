"""Programs by hand and random, of which crates/cases_programs prints what their statements do and what holds where they begin."""
import random

from reference import load

# a subroutine of one dummy and one local, and a CALL: what must be printed of both
SMALL = (['I=5', 'CALL S(I)', 'END', 'SUBROUTINE S(K)', 'J=K+1', 'K=J', 'RETURN', 'END'],
         ["1 T I {I'==5}", '2 P {I==5}', "2 T I {I'==I+1}", 'P {K==5}', "T K {K'==K+1}", '3 P {K==6, J==6}', '3 T {}'])

BY_HAND = [
    # every form
    ['PROGRAM P', 'INTEGER A(10)', 'LOGICAL L', 'PARAMETER (N=3)', 'DATA M/7/', 'I=J+N', 'A(I)=2', 'L=I.LT.J', 'READ *,K,A(1),K', 'PRINT *,I', 'IF (I.GT.N) J=I',
     'IF (I.LE.3) THEN', 'J=1', 'ELSE IF (J.EQ.2) THEN', 'K=J', 'ELSE', 'CONTINUE', 'END IF', 'DO I=1,N', 'K=K+2', 'END DO', 'STOP', 'END'],
    # a GO TO ahead, back, out of an arm, and into a list around it
    ['I=1', '10 CONTINUE', 'I=I+1', 'IF (I.LT.9) GO TO 10', 'J=I', 'END'],
    ['I=1', 'J=2', 'GO TO 10', 'J=3', '10 K=J', 'END'],
    ['I=1', 'IF (J.GT.0) THEN', 'I=2', 'GO TO 10', 'ELSE', 'I=3', '20 I=I+1', 'IF (I.LT.9) GO TO 20', 'END IF', 'K=I', '10 M=I', 'END'],
    ['DO I=1,9', 'IF (J.EQ.I) GO TO 10', 'J=J+1', 'END DO', 'K=1', '10 CONTINUE', 'END'],
    # RETURN as the last statement, before it, in an arm, and in a logical IF that is last
    ['CALL S(I)', 'CALL T(I)', 'CALL U(I)', 'CALL V(I)', 'K=I', 'END', 'SUBROUTINE S(N)', 'N=1', 'RETURN', 'END', 'SUBROUTINE T(N)', 'N=1', 'RETURN', 'N=2', 'END',
     'SUBROUTINE U(N)', 'N=1', 'IF (M.EQ.2) THEN', 'RETURN', 'END IF', 'END', 'SUBROUTINE V(N)', 'N=4', 'IF (M.EQ.2) RETURN', 'END'],
    # a labelled last RETURN
    ['CALL S(I)', 'END', 'SUBROUTINE S(N)', 'N=1', 'IF (N.EQ.M) GO TO 10', 'N=2', '10 RETURN', 'END'],
    # steps: none, up, down, 0, a variable, a constant by name, one that faults
    ['PARAMETER (NP=-2)', 'DO I=1,9', 'J=I', 'END DO', 'DO I=9,1,-1', 'J=I', 'END DO', 'DO I=1,9,0', 'J=I', 'END DO', 'DO I=1,9,K', 'J=I', 'END DO', 'DO I=9,K,NP',
     'J=J+1', 'END DO', 'DO I=1,9,2147483647+1', 'J=I', 'END DO', 'DO I=1,9,MOD(7,3)', 'J=I', 'END DO', 'END'],
    # the last value changes in the body; it is no form; the first is none
    ['DO I=1,N', 'N=N-1', 'K=I', 'END DO', 'DO I=1,N*N', 'K=I', 'END DO', 'DO I=N*N,9', 'K=I', 'END DO', 'DO I=N,M+1', 'J=J+2', 'L=J-2*I', 'END DO', 'END'],
    # no turn, one turn, and nested loops
    ['DO I=5,1', 'J=I', 'END DO', 'DO I=3,3', 'J=I', 'END DO', 'DO I=1,N', 'DO J=I,N', 'K=K+1', 'END DO', 'END DO', 'END'],
    # an index that is not tracked
    ['COMMON /B/ I', 'CALL S', 'DO I=1,N', 'J=J+1', 'END DO', 'END', 'SUBROUTINE S', 'COMMON /B/ K(1)', 'K(1)=2', 'END'],
    # calls three deep, with cells of blocks that the caller has, has not, has otherwise
    ['COMMON /B/ I,J /C/ K', 'I=1', 'J=2', 'K=3', 'CALL S', 'L=I+J+K', 'END', 'SUBROUTINE S', 'COMMON /C/ N', 'CALL T', 'N=N+1', 'END', 'SUBROUTINE T',
     'COMMON /B/ M1,M2 /C/ M3', 'M1=M1+1', 'M2=M3', 'END'],
    ['COMMON /B/ I,J', 'I=1', 'CALL S', 'CALL T', 'END', 'SUBROUTINE S', 'CALL U', 'END', 'SUBROUTINE T', 'COMMON /B/ K(2)', 'CALL U', 'END', 'SUBROUTINE U',
     'COMMON /B/ M,N', 'M=M+1', 'N=5', 'END'],
    # one cell for two dummies, a cell that is also in a block, expressions, elements and constants
    ['CALL S(I,I,J)', 'CALL S(I,J,I)', 'CALL S(I+1,I,(J))', 'END', 'SUBROUTINE S(K,L,M)', 'INTEGER L', 'K=1', 'M=2', 'END'],
    ['COMMON /B/ N', 'CALL S(N)', 'END', 'SUBROUTINE S(K)', 'COMMON /B/ M', 'K=2', 'M=3', 'END'],
    ['PARAMETER (NP=4)', 'INTEGER A(9)', 'LOGICAL L', 'CALL S(NP,A(2),L,A)', 'CALL S(N*N,-N,.TRUE.,A(3))', 'END', 'SUBROUTINE S(I,J,L,X)', 'LOGICAL L', 'INTEGER X(2)',
     'X(1)=I+J', 'END'],
    ['READ *,N,I', 'CALL S(I,N,10)', 'K=I', 'END', 'SUBROUTINE S(K,M,L)', 'READ *,N', 'IF (N.LE.M) THEN', 'K=N', 'ELSE', 'K=M', 'END IF', 'IF (K.GT.M+L) K=M+L', 'END'],
    # entries: several CALLs, two callers, a CALL that is not reached, none, and cells of blocks
    ['COMMON /B/ I,J', 'DATA K/3/', 'I=1', 'J=K', 'CALL S(2)', 'I=3', 'CALL S(K+1)', 'CALL T(K,7)', 'STOP', 'CALL S(9)', 'END', 'SUBROUTINE S(N)', 'COMMON /B/ L,M', 'L=L+N', 'END',
     'SUBROUTINE T(N,M)', 'COMMON /B/ K', 'IF (N.GT.2) CALL S(N+M)', 'DO N1=1,N', 'CALL S(N1)', 'END DO', 'END', 'SUBROUTINE W(N)', 'N=1', 'END'],
    # DATA on a cell, an array, a LOGICAL, a saved local of a subroutine
    ['INTEGER A(2)', 'LOGICAL L', 'DATA I/5/,A/2*1/,L/.TRUE./,J,K/-1,2/', 'M=I+J', 'CALL S', 'END', 'SUBROUTINE S', 'DATA N/4/', 'N=N+1', 'END'],
    # EQUIVALENCE, and two names of one unit
    ['COMMON /B/ I', 'EQUIVALENCE (J,I),(K,L)', 'I=1', 'J=2', 'K=3', 'M=I', 'CALL S', 'END', 'SUBROUTINE S', 'COMMON /B/ N', 'N=4', 'END'],
    # large numbers
    ['I=2147483647', 'J=I*I', 'K=2147483647*2147483647', 'L=2147483647+1', 'DO M=1,2147483647', 'I=I-1', 'END DO', 'END'],
    # conditions with constants, and a LOGICAL by name
    ['PARAMETER (NP=2)', 'LOGICAL L,LP', 'PARAMETER (LP=.FALSE.)', 'IF (.TRUE.) I=1', 'IF (LP) I=2', 'IF (L) I=3', 'IF (I.EQ.1.AND.J.LT.I) K=1', 'IF (.NOT.(I.NE.NP.OR.J.GE.3)) K=2',
     'IF (I.LT.2.EQV.L) K=3', 'END'],
]


class Maker:
    """A random program: modules that call later ones, with blocks in layouts of their own, loops, jumps and RETURNs."""

    def __init__(self, seed):
        self.r = random.Random(f'preconditions {seed}')

    def program(self):
        r = self.r
        count = r.choice([0, 1, 2, 2, 3])
        self.dummies = [[r.choice(['I', 'I', 'I', 'L', 'A']) for _ in range(r.randrange(4))] for _ in range(count)]
        text = []
        for k in range(-1, count):
            text += self.module(k, count)
        return text

    def module(self, k, count):
        r = self.r
        kinds = self.dummies[k] if k >= 0 else []
        names = [f'{"N" if d == "I" else "Q" if d == "L" else "X"}{n}' for n, d in enumerate(kinds)]
        self.ints = ['I', 'J', 'M'][:r.randrange(1, 4)] + [x for x in names if x[0] == 'N']
        self.logs = ['L'] + [x for x in names if x[0] == 'Q']
        self.arrays = [x for x in names if x[0] == 'X']
        out = [f'SUBROUTINE S{k}({",".join(names)})' if names else f'SUBROUTINE S{k}'] if k >= 0 else []
        out.append('LOGICAL ' + ','.join(self.logs))
        out += [f'INTEGER {x}(3)' for x in self.arrays]
        for block in ['', 'B']:
            if r.random() < 0.5:
                out += self.common(block)
        if r.random() < 0.2:
            out.append('INTEGER W(3)')
            self.arrays.append('W')
        if r.random() < 0.3:
            out.append(r.choice(['DATA I/1/', 'DATA L/.TRUE./', 'EQUIVALENCE (I,IE)', 'SAVE']))
        self.constants = ['NP'] if r.random() < 0.3 else []
        out += ['PARAMETER (NP=4)'] if self.constants else []
        self.k, self.count, self.label, self.open = k, count, 10, []
        body = self.list(r.randrange(1, 6), 0)
        if r.random() < 0.2:
            body.insert(r.randrange(len(body) + 1), '99 CONTINUE')
        if k >= 0 and r.random() < 0.2:
            body.append('RETURN')
        if '99 CONTINUE' not in body:
            body = [s.replace('GO TO 99', 'CONTINUE') for s in body]
        return out + body + ['END']

    def common(self, block):
        r = self.r
        members, declared = [], []
        for n in range(r.randrange(1, 4)):
            x = f'{"T" if r.random() < 0.1 else "K"}{block}{n}'
            shape = r.choice(['', '', '', '', '', '(2)'])
            members.append(x + shape)
            if x[0] == 'T':
                declared.append(f'LOGICAL {x}')
                if not shape:
                    self.logs.append(x)
            elif shape:
                self.arrays.append(x)
            else:
                self.ints.append(x)
        return [f'COMMON /{block}/ ' + ','.join(members)] + declared

    def list(self, count, depth):
        return [s for _ in range(count) for s in self.statement(depth)]

    def int(self, depth=0):
        r = self.r
        kind = r.random()
        if depth > 1 or kind < 0.5:
            return r.choice(self.ints + self.ints + self.constants + ['1', '2', '5'])
        if kind < 0.55 and self.arrays:
            return f'{r.choice(self.arrays)}({self.int(2)})'
        if kind < 0.6:
            return f'({self.int(depth + 1)})'
        if kind < 0.7:
            return f'{r.choice(["2", "3"])}*{self.int(2)}'
        if kind < 0.75:
            return f'{self.int(2)}*{self.int(2)}'
        return f'{self.int(depth + 1)}{r.choice("+-")}{self.int(2)}'

    def log(self):
        r = self.r
        test = lambda: f'{self.int(1)}{r.choice([".EQ.", ".LT.", ".GE.", ".NE.", ".LE.", ".GT."])}{self.int(1)}'
        return r.choice([test(), test(), test(), f'{test()}.AND.{test()}', f'{test()}.OR.{test()}', f'.NOT.({test()})', r.choice(self.logs)])

    def actual(self, dummy):
        r = self.r
        if dummy == 'I':
            return r.choice([self.int(1), r.choice(self.ints), r.choice(self.ints), r.choice(self.ints)])
        if dummy == 'L':
            return r.choice([r.choice(self.logs), '.TRUE.'])
        return r.choice(self.arrays)

    def call(self):
        r = self.r
        callee = r.randrange(self.k + 1, self.count)
        dummies = self.dummies[callee]
        if 'A' in dummies and not self.arrays:
            return 'CONTINUE'
        return f'CALL S{callee}' + (f'({",".join(self.actual(d) for d in dummies)})' if dummies else '')

    def simple(self):
        r = self.r
        kind = r.randrange(16)
        if kind < 4 and self.k + 1 < self.count:
            return self.call()
        if kind < 11:
            return f'{r.choice(self.ints)}={self.int()}'
        if kind == 11:
            return f'READ *,{r.choice(self.ints)}'
        if kind == 12:
            return f'{r.choice(self.logs)}={self.log()}'
        if kind == 13:
            return 'GO TO 99'
        if kind == 14 and self.k >= 0 and r.random() < 0.4:
            return 'RETURN'
        return r.choice(['CONTINUE', 'CONTINUE', 'STOP', 'PRINT *,I'])

    def statement(self, depth):
        r = self.r
        kind = r.randrange(11)
        if kind < 5 or depth > 2:
            return [self.simple()]
        if kind == 5:
            return [f'IF ({self.log()}) {self.simple()}']
        if kind < 8:
            out = [f'IF ({self.log()}) THEN'] + self.list(r.randrange(0, 3), depth + 1)
            if r.random() < 0.4:
                out += [f'ELSE IF ({self.log()}) THEN'] + self.list(r.randrange(0, 2), depth + 1)
            if r.random() < 0.5:
                out += ['ELSE'] + self.list(r.randrange(0, 2), depth + 1)
            return out + ['END IF']
        if kind == 8:
            self.label += 1
            label = self.label
            if r.random() < 0.5:
                return [f'IF ({self.log()}) GO TO {label}', self.simple(), f'{label} CONTINUE']
            return [f'{label} CONTINUE', self.simple(), f'IF ({self.log()}) GO TO {label}']
        head = f'DO {r.choice(self.ints)}={self.int(1)},{self.int(1)}' + (f',{r.choice(["1", "2", "-1", "-1", "-3", "0", "I", "NP" if self.constants else "2"])}' if r.random() < 0.4 else '')
        return [head] + self.list(r.randrange(1, 3), depth + 1) + ['END DO']


def scalar_programs(seed=0):
    """Statements or a text of programs, each with lines that must be printed of it; of the random ones one in three is of a profile, the profiles in turn."""
    programs = load('programs')
    profiles = [p for p in programs.PROFILES if p != 'functions'] + ['tiny']
    yield SMALL
    for statements in BY_HAND:
        yield statements, []
    tried = len(BY_HAND)
    while True:
        if tried % 3 == 0:
            yield programs.make(f'{seed} {tried}', profiles[tried // 3 % len(profiles)])[0], []
        else:
            yield Maker(f'{seed} {tried}').program(), []
        tried += 1
