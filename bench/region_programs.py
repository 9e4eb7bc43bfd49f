"""Programs by hand and random, of which the command writes what the statements of modules access."""
import random

from reference import load

# a program as statements, and lines that must be printed of it, worked out from the rules
BY_HAND = [
    # one element after another; of every second one; down; in a triangle
    (['INTEGER A(9)', 'DO I=1,9', 'A(I)=I', 'END DO', 'END'],
     ['1 C> READ I {} EXACT', '1 C> WRITE A {1<=PHI1, PHI1<=9} EXACT', '1 C> WRITE I {} EXACT', '2', ' READ I {} EXACT', ' WRITE A {PHI1==I} EXACT']),
    (['INTEGER A(9)', 'DO I=1,9,2', 'A(I)=0', 'END DO', 'END'], ['1 C> WRITE A {1<=PHI1, PHI1<=9} MAY', '1 C> WRITE I {} EXACT']),
    (['INTEGER A(9)', 'DO I=9,2,-1', 'A(I)=A(I-1)', 'END DO', 'END'],
     ['1 C> READ A {1<=PHI1, PHI1<=8} EXACT', '1 C> WRITE A {2<=PHI1, PHI1<=9} EXACT', ' READ A {PHI1+1==I} EXACT']),
    (['INTEGER A(9,9)', 'READ *,N', 'DO I=1,N', 'DO J=I,N', 'A(I,J)=0', 'END DO', 'END DO', 'END'],
     ['2 C> WRITE A {1<=PHI1, PHI2<=N, PHI1<=PHI2} EXACT', '3 C> WRITE A {PHI1==I, PHI2<=N, I<=PHI2} EXACT']),
    # two elements apart: what lies between is not written; neighbours
    (['INTEGER A(9)', 'COMMON /B/ A', 'A(1)=0', 'A(5)=0', 'END'], ['1', ' WRITE A {PHI1==1} EXACT']),
    (['SUBROUTINE S', 'INTEGER A(9)', 'COMMON /B/ A', 'A(1)=0', 'A(5)=0', 'END', 'END'], ['0 C> WRITE A {PHI1==1} + {PHI1==5} EXACT', 'summary', ' WRITE A {PHI1==1} + {PHI1==5} EXACT']),
    # a subscript without a form has its bounds, where they are constant; two dimensions, one of them without a form
    (['INTEGER A(9),L(3)', 'A(L(2))=0', 'END'], [' READ L {PHI1==2} EXACT', ' WRITE A {1<=PHI1, PHI1<=9} MAY']),
    (['INTEGER A(-2:4,5)', 'A(K*K,2)=0', 'END'], [' READ K {} EXACT', ' WRITE A {PHI2==2, 0<=PHI1+2, PHI1<=4} MAY']),
    (['PARAMETER (NP=3)', 'INTEGER A(NP)', 'A(MOD(I,NP)+1)=NP', 'END'], [' READ I {} EXACT', ' WRITE A {1<=PHI1, PHI1<=3} MAY']),
    # a subroutine: adjustable bounds are read, locals are projected away, saved ones are seen
    (['CALL S', 'END', 'SUBROUTINE S', 'INTEGER A(9)', 'COMMON /B/ A', 'K=3', 'A(K)=1', 'END'], ['0 C> WRITE A {PHI1==3} EXACT']),
    (['INTEGER B(9)', 'CALL S(B,9)', 'END', 'SUBROUTINE S(A,N)', 'INTEGER A(N)', 'DO I=1,N', 'A(I)=A(I)+1', 'END DO', 'END'],
     ['0 C> READ A {1<=PHI1, PHI1<=N} EXACT', '0 C> READ N {} EXACT', '0 C> WRITE A {1<=PHI1, PHI1<=N} EXACT']),
    (['INTEGER A(9)', 'CALL S(A)', 'END', 'SUBROUTINE S(X)', 'INTEGER X(9)', 'DATA K /3/', 'IF (K.GT.0) X(K)=0', 'END'],
     ['0 C> READ K {} EXACT', '0 C> WRITE X {1<=PHI1} MAY']),
    # an index, a bound or another cell that the body changes; a step that is no constant; bounds without a form
    (['INTEGER A(9),L(3)', 'DO I=1,3', 'A(J)=0', 'J=L(I)', 'END DO', 'END'], ['1 C> WRITE A {} MAY']),
    (['INTEGER A(9)', 'DO I=1,9,K', 'A(I)=0', 'END DO', 'END'], ['1 C> READ K {} EXACT', '1 C> WRITE A {} MAY']),
    (['INTEGER A(9)', 'DO I=K*K,5', 'A(I)=0', 'END DO', 'END'], ['1 C> WRITE A {PHI1<=5} MAY']),
    (['INTEGER A(9)', 'DO I=1,K*K', 'A(I)=0', 'END DO', 'END'], ['1 C> WRITE A {1<=PHI1} MAY']),
    (['INTEGER A(50)', 'READ *,N', 'DO I=1,N', 'A(10*N+I)=0', 'N=N-1', 'END DO', 'END'], []),
    # tests: where one is exact and where not, and a later test
    (['INTEGER A(9)', 'READ *,K', 'IF (K.LE.3) A(1)=0', 'IF (K.NE.3) A(2)=0', 'END'], ['2', ' WRITE A {PHI1==1, K<=3} EXACT', ' WRITE A {PHI1==2} MAY']),
    (['INTEGER A(9)', 'READ *,K', 'IF (K.GT.0) THEN', 'J=1', 'ELSE IF (A(1).GT.0) THEN', 'J=2', 'ELSE', 'A(2)=J', 'END IF', 'END'],
     [' READ A {PHI1==1, K<=0} EXACT', ' READ K {} EXACT', ' WRITE A {PHI1==2, K<=0} MAY']),
    # a READ of an item that a later one has in its subscript
    (['INTEGER A(9)', 'READ *,K,A(K)', 'END'], ['1', ' READ K {} EXACT', ' WRITE A {} MAY', ' WRITE K {} EXACT']),
    (['INTEGER A(9)', 'READ *,A(K),K', 'END'], [' READ K {} EXACT', ' WRITE A {PHI1==K} EXACT', ' WRITE K {} EXACT']),
    # a GO TO back, and one ahead
    (['SUBROUTINE S(K)', 'INTEGER A(9)', 'COMMON /B/ A', '10 A(K)=0', 'K=K+1', 'IF (K.LT.9) GO TO 10', 'END', 'END'],
     ['0 C> WRITE A {} MAY', ' WRITE A {PHI1==K} EXACT']),
    (['INTEGER A(9)', 'DO I=1,9', 'IF (K.EQ.I) GO TO 10', 'A(I)=0', '10 CONTINUE', 'END DO', 'END'], []),
    # a RETURN before the end, and what a GO TO or a STOP passes over
    (['SUBROUTINE S(K)', 'INTEGER A(9)', 'COMMON /B/ A', 'IF (K.EQ.1) RETURN', 'A(K)=0', 'END', 'END'], ['0 C> WRITE A {PHI1==K} MAY']),
    (['SUBROUTINE S(K)', 'INTEGER A(9)', 'COMMON /B/ A', 'IF (K.EQ.1) STOP', 'A(K)=0', 'END', 'END'], []),
    # a loop without turns, one of one turn
    (['INTEGER A(9)', 'DO I=5,1', 'A(I)=0', 'END DO', 'DO I=3,3', 'A(I)=0', 'END DO', 'END'], ['1 C> WRITE I {} EXACT', '3 C> WRITE A {PHI1==3} EXACT']),
    # LOGICAL arrays and scalars, and the text of a PRINT
    (['LOGICAL L(3),M', 'L(2)=M.OR.L(1)', "PRINT *,'M',L(3),-I+(J)", 'END'], [' READ M {} EXACT', ' WRITE L {PHI1==2} EXACT', '2', ' READ L {PHI1==3} EXACT', ' READ I {} EXACT']),
    # EQUIVALENCE and an index that is not tracked
    (['INTEGER A(9)', 'EQUIVALENCE (I,J)', 'DO I=1,9', 'A(I)=0', 'END DO', 'END'], ['1 C> WRITE A {1<=PHI1, PHI1<=9} MAY']),
]

# the same with CALLs: what is called, in the terms of the caller
CALLS = [
    # three elements from one on, over two columns; a whole array; a column; an element from which each is counted
    (['INTEGER A(4,4)', 'CALL S(A(1,2))', 'END', 'SUBROUTINE S(X)', 'INTEGER X(3)', 'DO I=1,3', 'X(I)=0', 'END DO', 'END'],
     ['1 C> WRITE A {1<=PHI1, PHI1<=4, 9<=PHI1+4*PHI2, PHI1+4*PHI2<=11} EXACT']),
    (['INTEGER B(0:8)', 'CALL S(B,9)', 'END', 'SUBROUTINE S(X,N)', 'INTEGER X(N)', 'DO I=1,N', 'X(I)=X(I)+1', 'END DO', 'END'],
     ['1 C> READ B {0<=PHI1, PHI1<=8} EXACT', '1 C> WRITE B {0<=PHI1, PHI1<=8} EXACT']),
    (['INTEGER A(10,20)', 'DO J=1,20', 'CALL S(A(1,J),10)', 'END DO', 'END', 'SUBROUTINE S(X,N)', 'INTEGER X(N)', 'DO K=1,N', 'X(K)=K', 'END DO', 'END'],
     ['2 C> READ J {} EXACT', '2 C> WRITE A {1<=PHI1, PHI1<=10, 1<=PHI2, PHI2<=20, PHI1+10*PHI2<=10*J+10, 10*J+1<=PHI1+10*PHI2} EXACT']),
    (['INTEGER A(9)', 'READ *,K', 'CALL S(A(K))', 'END', 'SUBROUTINE S(X)', 'INTEGER X(-1:1)', 'X(-1)=X(1)', 'END'],
     ['2 C> READ A {PHI1==K+2} EXACT', '2 C> READ K {} EXACT', '2 C> WRITE A {PHI1==K} EXACT']),
    # scalars: one that is named, an element, expressions, of which nothing is said but what they read, a constant, a function
    (['INTEGER A(9)', 'CALL S(K,A(K+1),(L),I+J)', 'END', 'SUBROUTINE S(M,N,I,J)', 'M=N+I+J', 'END'],
     ['1 C> READ A {PHI1==K+1} EXACT', '1 C> READ I {} EXACT', '1 C> READ J {} EXACT', '1 C> READ K {} EXACT', '1 C> READ L {} EXACT', '1 C> WRITE K {} EXACT']),
    (['PARAMETER (NP=3)', 'CALL S(NP,MOD(I,NP),4)', 'END', 'SUBROUTINE S(M,N,I)', 'COMMON /B/ K', 'K=M+N+I', 'END'],
     ['1 C> READ I {} EXACT', '1 C> WRITE /B/ {PHI1==1} EXACT']),
    # a subscript without a form, of an array and of an element; what is known of the other cells stands
    (['INTEGER A(20),L(2)', 'READ *,N', 'CALL S(A(L(2)),N)', 'END', 'SUBROUTINE S(X,K)', 'INTEGER X(4)', 'IF (K.GE.1) X(1)=0', 'END'],
     ['2 C> READ L {PHI1==2} EXACT', '2 C> WRITE A {1<=N, 1<=PHI1, PHI1<=20} MAY']),
    (['INTEGER A(20)', 'CALL S(A(K*K))', 'END', 'SUBROUTINE S(N)', 'N=0', 'END'], ['1 C> READ K {} EXACT', '1 C> WRITE A {1<=PHI1, PHI1<=20} MAY']),
    # leading extents: the same forms, other ones, and one that a statement changes
    (['INTEGER A(4,4)', 'CALL S(A,4)', 'END', 'SUBROUTINE S(A,N)', 'INTEGER A(N,N)', 'CALL T(A,N)', 'END', 'SUBROUTINE T(X,N)', 'INTEGER X(N,*)', 'X(1,2)=0', 'END'],
     ['0 C> WRITE A {PHI1==1, PHI2==2} EXACT', '1 C> WRITE A {PHI1==1, PHI2==2} EXACT']),
    (['INTEGER A(4,4)', 'CALL S(A,4)', 'END', 'SUBROUTINE S(A,N)', 'INTEGER A(N,N)', 'CALL T(A,2)', 'END', 'SUBROUTINE T(X,N)', 'INTEGER X(N,*)', 'X(1,2)=0', 'END'],
     ['0 C> WRITE A {1<=PHI1, 1<=PHI2} MAY', '1 C> WRITE A {1<=PHI1, 1<=PHI2} MAY']),
    (['INTEGER A(4,4)', 'CALL S(A,4)', 'END', 'SUBROUTINE S(A,N)', 'INTEGER A(N,N)', 'N1=N', 'CALL T(A,N)', 'N=N1+1', 'END', 'SUBROUTINE T(X,N)', 'INTEGER X(N,*)', 'X(1,2)=0', 'END'],
     ['2 C> WRITE A {1<=PHI1, 1<=PHI2} MAY']),
    (['INTEGER A(3,4)', 'CALL S(A)', 'END', 'SUBROUTINE S(X)', 'INTEGER X(2,6)', 'X(2,3)=0', 'END'],
     ['1 C> WRITE A {PHI1==3, PHI2==2} EXACT']),
    (['INTEGER A(2:4,0:3)', 'CALL S(A)', 'END', 'SUBROUTINE S(X)', 'INTEGER X(3,-1:2)', 'X(1,-1)=X(3,2)', 'END'],
     ['1 C> READ A {PHI1==4, PHI2==3} EXACT', '1 C> WRITE A {PHI1==2, PHI2==0} EXACT']),
    # COMMON: the same variable, the first of two that is like it, another layout, a block of a third module, a subscript in COMMON
    (['COMMON /B/ N,A(9)', 'INTEGER A', 'READ *,N', 'CALL S', 'END', 'SUBROUTINE S', 'COMMON /B/ M,X(9)', 'INTEGER X', 'X(M)=M', 'END'],
     ['2 C> READ N {} EXACT', '2 C> WRITE A {PHI1==N} EXACT']),
    (['COMMON /B/ N,M(8)', 'CALL S', 'END', 'SUBROUTINE S', 'COMMON /B/ L(3),M(2,3)', 'M(1,2)=L(2)', 'END'],
     ['1 C> READ /B/ {PHI1==2} EXACT', '1 C> WRITE /B/ {PHI1==6} EXACT']),
    (['COMMON /B/ A(2:5)', 'INTEGER A', 'CALL S', 'END', 'SUBROUTINE S', 'COMMON /B/ A(4)', 'INTEGER A', 'A(1)=0', 'END'], ['1 C> WRITE /B/ {PHI1==1} EXACT']),
    (['CALL T', 'END', 'SUBROUTINE T', 'CALL S', 'END', 'SUBROUTINE S', 'COMMON //A(3,3)', 'INTEGER A', 'A(1,2)=0', 'END'],
     ['0 C> WRITE // {PHI1==4} EXACT', '1 C> WRITE // {PHI1==4} EXACT']),
    (['COMMON /B/ I,J', 'CALL S', 'END', 'SUBROUTINE S', 'COMMON /B/ I,J', 'EQUIVALENCE (I,K)', 'K=J', 'END'], ['1 C> READ J {} EXACT', '1 C> WRITE I {} EXACT']),
    # saved locals: of the callee, and of what that calls; one with DATA; one that is not saved
    (['CALL T', 'END', 'SUBROUTINE T', 'CALL S', 'END', 'SUBROUTINE S', 'INTEGER K(3)', 'SAVE K', 'IF (K(1).EQ.0) K(2)=1', 'K(1)=1', 'END'],
     ['0 C> READ S:K {PHI1==1} EXACT', '0 C> WRITE S:K {PHI1==2} + {PHI1==1} MAY', '1 C> READ S:K {PHI1==1} EXACT']),
    (['CALL S', 'END', 'SUBROUTINE S', 'INTEGER K(3),L(3)', 'DATA N /1/', 'K(N)=0', 'L(1)=N', 'END'], ['1 C> READ S:N {} EXACT', '1', ' READ S:N {} EXACT']),
    # cells of the callee without a form in the caller; a dummy twice; an actual twice
    (['INTEGER A(9)', 'CALL S(A,K*K)', 'END', 'SUBROUTINE S(X,N)', 'INTEGER X(9)', 'DO I=2,N', 'X(I)=0', 'END DO', 'END'],
     ['1 C> READ K {} EXACT', '1 C> WRITE A {2<=PHI1} MAY']),
    (['INTEGER A(5)', 'CALL S(A,A)', 'END', 'SUBROUTINE S(X,Y)', 'INTEGER X(5),Y(5)', 'X(1)=Y(2)', 'END'],
     ['1 C> READ A {PHI1==2} EXACT', '1 C> WRITE A {PHI1==1} EXACT']),
    # what an actual reads before, and what comes after: over a DO, in a list, under a test, where statements come in any order
    (['INTEGER A(9)', 'DO I=1,8', 'CALL S(A(I),A(I+1))', 'END DO', 'END', 'SUBROUTINE S(M,N)', 'M=N', 'END'],
     ['1 C> READ A {2<=PHI1, PHI1<=9} EXACT', '1 C> WRITE A {1<=PHI1, PHI1<=8} EXACT', '2 C> READ A {PHI1==I+1} EXACT']),
    (['INTEGER A(9)', 'CALL S(K)', 'A(K)=0', 'END', 'SUBROUTINE S(N)', 'N=N+1', 'END'], ['2', ' WRITE A {PHI1==K} EXACT']),
    (['INTEGER A(9)', 'READ *,K', 'IF (K.GE.3) CALL S(A,K)', 'END', 'SUBROUTINE S(X,N)', 'INTEGER X(9)', 'IF (N.LE.7) X(N)=0', 'END'],
     ['2', ' WRITE A {PHI1==K, 3<=K, K<=7} EXACT']),
    (['INTEGER A(9)', 'CALL S(A,K)', 'END', 'SUBROUTINE S(X,K)', 'INTEGER X(9)', '10 CALL T(X,K)', 'IF (K.LT.9) GO TO 10', 'END', 'SUBROUTINE T(X,K)', 'INTEGER X(9)',
      'K=K+1', 'X(K)=0', 'END'], ['1 C> WRITE X {PHI1==K+1} EXACT', '0 C> WRITE X {} MAY']),
    # without regions: nothing is done, or it is never done
    (['CALL S', 'CALL T(2)', 'END', 'SUBROUTINE S', 'K=1', 'END', 'SUBROUTINE T(N)', 'IF (N.GT.N) K=N', 'END'], []),
]

# the profiles of random programs that the reference has, those with many loops and arrays more often
PROFILES = ['small', 'loops', 'affine', 'loops', 'parallel', 'affine', 'jumps', 'mixed', 'hazard', 'affine', 'storage', 'reduce', 'loops', 'jumphaz', 'common', 'tiny', 'sums', 'refs',
            'edges', 'known', 'saved']


class Maker:
    """A random program of one module: nested loops with any bounds and steps over arrays of one to three dimensions, tests, jumps, and cells that change."""

    def __init__(self, seed):
        self.r = random.Random(f'regions {seed}')

    def program(self):
        r = self.r
        sub = r.random() < 0.5
        self.ints, self.label, self.depth = ['I', 'J', 'K', 'N'][:r.randrange(2, 5)], 10, 0
        self.arrays = {x: r.choice([1, 1, 1, 2, 2, 3]) for x in ['A', 'B', 'L'][:r.randrange(1, 4)]}
        out = [f'SUBROUTINE S({",".join(self.ints[1:])})'] if sub else []
        out += [f'INTEGER {x}({",".join(self.bound(sub) for _ in range(d))})' for x, d in self.arrays.items()]
        if r.random() < 0.6 and not any('N' in s.partition('(')[2] or '*' in s for s in out[1:]):
            out.append('COMMON /B/ ' + ','.join(list(self.arrays)[:2]))
        if r.random() < 0.15:
            out.append(r.choice(['EQUIVALENCE (I,IE)', 'SAVE', 'DATA M/3/']))
        body = self.list(r.randrange(2, 6), 0)
        if r.random() < 0.15:
            body.insert(r.randrange(len(body) + 1), '99 CONTINUE')
        if sub and r.random() < 0.15:
            body.append('RETURN')
        if '99 CONTINUE' not in body:
            body = [s.replace('GO TO 99', 'CONTINUE') for s in body]
        return out + body + ['END'] + (['END'] if sub else [])

    def bound(self, sub):
        r = self.r
        return r.choice(['5', '9', '0:7', '-3:3', '20'])

    def form(self, depth=0):
        r = self.r
        kind = r.randrange(12)
        if depth > 1 or kind < 5:
            return r.choice(self.ints + ['1', '2', '4'])
        if kind < 9:
            return f'{self.form(depth + 1)}{r.choice("+-")}{self.form(2)}'
        if kind == 9:
            return f'{r.choice(["2", "3", "-1"])}*{r.choice(self.ints)}'
        if kind == 10:
            return f'{r.choice(self.ints)}*{r.choice(self.ints)}'
        return self.element(2)

    def element(self, depth=0):
        x = self.r.choice(list(self.arrays))
        return f'{x}({",".join(self.form(depth) for _ in range(self.arrays[x]))})'

    def test(self):
        r = self.r
        one = lambda: f'{self.form(1)}{r.choice([".EQ.", ".NE.", ".LT.", ".LE.", ".GT.", ".GE."])}{self.form(1)}'
        return r.choice([one(), one(), one(), f'{one()}.AND.{one()}', f'{one()}.OR.{one()}', f'.NOT.({one()})'])

    def list(self, count, depth):
        return [s for _ in range(count) for s in self.statement(depth)]

    def simple(self):
        r = self.r
        kind = r.randrange(15)
        if kind < 8:
            return f'{self.element()}={self.form()}'
        if kind < 11:
            return f'{r.choice(self.ints)}={self.form()}'
        if kind == 11:
            return f'READ *,{",".join(r.choice([self.element(), r.choice(self.ints)]) for _ in range(r.randrange(1, 4)))}'
        if kind == 12:
            return f'PRINT *,{self.form()},{self.element()}'
        return r.choice(['CONTINUE', 'GO TO 99', 'STOP'])

    def statement(self, depth):
        r = self.r
        kind = r.randrange(10)
        if depth > 2 or kind < 4:
            return [self.simple()]
        if kind == 4:
            return [f'IF ({self.test()}) {self.simple()}']
        if kind == 5:
            out = [f'IF ({self.test()}) THEN'] + self.list(r.randrange(0, 3), depth + 1)
            if r.random() < 0.4:
                out += [f'ELSE IF ({self.test()}) THEN'] + self.list(r.randrange(0, 2), depth + 1)
            if r.random() < 0.5:
                out += ['ELSE'] + self.list(r.randrange(0, 2), depth + 1)
            return out + ['END IF']
        if kind == 6 and r.random() < 0.4:
            self.label += 1
            return [f'{self.label} CONTINUE', self.simple(), f'IF ({self.test()}) GO TO {self.label}']
        step = r.choice([''] * 7 + [',1', ',2', ',-1', ',-2', ',3', f',{r.choice(self.ints)}'])
        first, last = r.choice(['1', '2', self.form(1)]), r.choice(['N' if 'N' in self.ints else '9', '5', self.form(1)])
        if step.startswith(',-'):
            first, last = last, first
        return [f'DO {r.choice(self.ints)}={first},{last}{step}'] + self.list(r.randrange(1, 3), depth + 1) + ['END DO']


class CallMaker(Maker):
    """A random program of two to four modules, each of which calls those after it, with arrays as dummies, in COMMON and saved."""

    def __init__(self, seed):
        self.r = random.Random(f'calls {seed}')
        self.callees = {}

    def program(self):
        r, modules = self.r, []
        for number in reversed(range(r.randrange(2, 5))):
            modules.insert(0, self.module(number))
        return [s for module in modules for s in module]

    def module(self, number):
        """A module; its dummies are remembered for those that call it."""
        r = self.r
        self.ints, self.label = ['I', 'J', 'K', 'N'][:r.randrange(2, 5)], 10
        self.arrays = {x: r.choice([1, 1, 2, 2, 3]) for x in ['A', 'B', 'L'][:r.randrange(1, 4)]}
        dummies = [x for x in self.ints + list(self.arrays) if number and r.random() < 0.5]
        out = [f'SUBROUTINE S{number}' + (f'({",".join(dummies)})' if dummies else '')] if number else []
        out += [f'INTEGER {x}({self.bounds(x, d, dummies)})' for x, d in self.arrays.items()]
        shared = [x for x in self.arrays if x not in dummies] + [x for x in self.ints[1:] if x not in dummies and r.random() < 0.4]
        if shared and r.random() < 0.6:
            out.append('COMMON /B/ ' + ','.join(r.sample(shared, r.randrange(1, len(shared) + 1))))
        elif r.random() < 0.3:
            out.append(r.choice(['SAVE', 'DATA M/3/', 'EQUIVALENCE (I,IE)']))
        body = [s.replace('GO TO 99', 'CONTINUE') for s in self.list(r.randrange(2, 5), 1)]
        if number and r.random() < 0.15:
            body.insert(r.randrange(len(body) + 1), 'IF (I.GT.4) RETURN' if body[-1:] != ['END DO'] else 'CONTINUE')
        self.callees[number] = [self.arrays.get(x, 0) for x in dummies]
        return out + body + ['END']

    def bounds(self, x, rank, dummies):
        r = self.r
        of_dummy = ['N', 'N', '4'] if x in dummies and 'N' in dummies else ['4', '5']
        dims = [r.choice(of_dummy + ['5', '4', '0:3', '-1:2']) for _ in range(rank)]
        if x in dummies and r.random() < 0.3:
            dims[-1] = '*'
        return ','.join(dims)

    def actual(self, rank):
        r = self.r
        if rank == 0:
            return r.choice([r.choice(self.ints), r.choice(self.ints), r.choice(['2', '4']), self.form(1), self.element(1), f'({r.choice(self.ints)})'])
        x = r.choice([x for x in self.arrays])
        return x if r.random() < 0.5 else self.element(1)

    def simple(self):
        r = self.r
        if self.callees and r.random() < 0.35:
            number = r.choice(list(self.callees))
            ranks = self.callees[number]
            return f'CALL S{number}' + (f'({",".join(self.actual(rank) for rank in ranks)})' if ranks else '')
        return super().simple()


def region_programs(seeds):
    """The programs by hand, and then random ones of these seeds: statements or a text, and lines that must be printed."""
    yield from BY_HAND + CALLS
    programs = load('programs')
    for seed in seeds:
        yield Maker(seed).program(), []
        yield CallMaker(seed).program(), []
        try:
            yield programs.make(seed, PROFILES[seed % len(PROFILES)])[0], []
        except (KeyError, IndexError, ValueError):
            pass
