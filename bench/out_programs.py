"""Programs by hand, of which the command writes what is written and read later; and random ones."""
from in_programs import BY_HAND as INS, module
from region_programs import CallMaker, Maker, PROFILES
from reference import load

# a main program that calls S, reads some of a block, and S
MAIN = ['INTEGER A(9),B(9),L(3)', 'COMMON /B/ A,B,L,M']


def calling(reads, *body):
    """A main program that calls S and then prints this, and S with this body."""
    return MAIN + ['CALL S(N)', f'PRINT *,{reads}', 'END'] + module(*body)[:-1]


# a program as statements, and lines that must be printed of it, worked out from the rules
BY_HAND = [
    # behind a main program nothing is read; what is written twice is not read in between
    (['INTEGER A(9)', 'A(1)=0', 'A(2)=0', 'K=A(1)', 'END'], ['1', ' OUT A {PHI1==1} MAY', '2', '3']),
    (['INTEGER A(9)', 'A(1)=0', 'A(1)=1', 'K=A(1)', 'END'], ['1', '2', ' OUT A {PHI1==1} MAY']),
    (['INTEGER A(9),L(3)', 'A(1)=0', 'A(L(1))=1', 'K=A(1)', 'END'], [' OUT A {PHI1==1} MAY']),
    # what callers read after the CALL
    (calling('A(2)', 'A(1)=0', 'A(2)=0', 'B(1)=0'), ['1 C> OUT A {PHI1==2} MAY', '0 C> OUT A {PHI1==2} MAY', ' OUT A {PHI1==2} MAY']),
    (calling('A(2),A(5)', 'A(2)=0', 'A(3)=0', 'A(9)=0'), ['0 C> OUT A {PHI1==2} MAY', ' OUT A {PHI1==2} MAY', '2', '3']),
    # a cell that changes between the statement and what reads it
    (calling('A(3)', 'M=3', 'A(M)=0', 'M=4', 'A(M)=0'), [' OUT A {M==3, PHI1==3} MAY']),
    (calling('M', 'M=3', 'K=M', 'M=4'), ['0 C> OUT M {} MAY', ' OUT M {M==3, K==3} MAY']),
    # tests
    (calling('A(1)', 'IF (N.GT.0) THEN', 'A(1)=0', 'ELSE', 'A(1)=1', 'A(2)=0', 'END IF'), ['0 C> OUT A {PHI1==1, 1<=N} + {PHI1==1, N<=0} MAY', '3', ' OUT A {PHI1==1, 1<=N} + {PHI1==1, N<=0} MAY', '4']),
    (calling('A(1)', 'A(1)=0', 'IF (N.GT.0) A(1)=1'), ['0 C> OUT A {PHI1==1} MAY', ' OUT A {PHI1==1, N<=0} MAY', ' OUT A {PHI1==1, 1<=N} MAY']),
    # a DO: what later iterations read; up, down, over a distance, in strides
    (calling('A(9)', 'DO I=2,9', 'A(I)=A(I-1)', 'END DO'), ['1 C> OUT A {PHI1==9} MAY', ' OUT A {I==9, PHI1==9} + {PHI1==I, I<=8} MAY']),
    (calling('A(1)', 'DO I=8,1,-1', 'A(I)=A(I+1)', 'END DO'), ['1 C> OUT A {PHI1==1} MAY', ' OUT A {I==1, PHI1==1} + {PHI1==I, 2<=I} MAY']),
    (calling('B(1)', 'DO I=3,9', 'A(I)=A(I-2)', 'END DO'), [' OUT A {PHI1==I, I<=7} MAY']),
    (calling('B(1)', 'DO I=1,8', 'A(I)=A(I+1)', 'END DO'), []),
    (calling('B(1)', 'DO I=1,9,2', 'A(I)=A(1)', 'END DO'), [' OUT A {I==1, PHI1==1} MAY']),
    (calling('B(1)', 'DO I=1,N', 'A(I)=A(1)', 'N=N-1', 'END DO'), []),
    (calling('B(1)', 'M=0', 'DO I=1,9', 'M=M+1', 'A(I)=A(M)', 'END DO'), [' OUT A {PHI1==I} MAY']),
    (calling('B(9)', 'DO I=1,9', 'DO J=1,9', 'A(J)=I', 'END DO', 'B(I)=A(I)', 'END DO'), ['2 C> OUT A {PHI1==I, 1<=I, I<=9} MAY', ' OUT A {J==I, PHI1==I, 1<=I, I<=9} MAY']),
    # GO TO: out of a list, within one, and back
    (calling('A(1)', 'DO I=1,9', 'A(1)=I', 'IF (N.EQ.I) GO TO 10', 'A(1)=0', 'END DO', '10 CONTINUE'), ['2', ' OUT A {PHI1==1} MAY', '3']),
    (calling('A(1)', '10 A(1)=A(2)', 'A(2)=M', 'M=M+1', 'IF (M.LT.9) GO TO 10'), []),
    (calling('A(1)', 'IF (N.GT.0) THEN', 'A(1)=0', 'IF (N.GT.1) GO TO 10', 'A(1)=1', 'END IF', 'A(1)=2', '10 CONTINUE'), []),
    (calling('A(1)', 'A(1)=0', 'IF (N.EQ.1) RETURN', 'A(1)=1'), ['1', ' OUT A {PHI1==1} MAY', '2']),
    (calling('A(1)', 'IF (N.EQ.2) THEN', 'A(1)=0', 'RETURN', 'END IF', 'A(1)=1'), [' OUT A {N==2, PHI1==1} MAY']),
    (calling('A(1)', 'A(1)=0', 'A(1)=1', 'RETURN'), []),
    (calling('A(1)', 'A(1)=0', 'IF (N.EQ.1) STOP', 'A(1)=1'), []),
    # two names of an array, and of a scalar
    (['INTEGER A(9),E(9)', 'EQUIVALENCE (A(2),E(1))', 'A(2)=0', 'A(3)=0', 'K=E(1)', 'END'], ['1', ' OUT A {PHI1==2} MAY', '2', ' OUT A {PHI1==3} MAY']),
    (['INTEGER K(1)', 'EQUIVALENCE (N,K(1))', 'N=1', 'PRINT *,K(1)', 'END'], ['1', ' OUT N {} MAY']),
    # CALLs: dummies and their actuals, whole arrays and elements, one actual of two dummies
    (['INTEGER A(9)', 'CALL S(A,9)', 'K=A(1)', 'END', 'SUBROUTINE S(X,N)', 'INTEGER X(N)', 'X(1)=0', 'X(2)=0', 'END'], ['0 C> OUT X {PHI1==1} MAY', '1', ' OUT X {PHI1==1} MAY', '2']),
    (['INTEGER A(9)', 'CALL S(A(3))', 'K=A(4)', 'END', 'SUBROUTINE S(X)', 'INTEGER X(*)', 'X(1)=0', 'X(2)=0', 'END'], ['0 C> OUT X {PHI1==2} MAY', '1', '2']),
    (['INTEGER A(3,4)', 'CALL S(A)', 'K=A(2,3)', 'END', 'SUBROUTINE S(X)', 'INTEGER X(12)', 'X(7)=0', 'X(8)=0', 'END'], ['0 C> OUT X {PHI1==8} MAY']),
    (['INTEGER A(3,4)', 'CALL S(A(1,2))', 'K=A(2,3)', 'END', 'SUBROUTINE S(X)', 'INTEGER X(3,2)', 'X(2,2)=0', 'X(2,1)=0', 'END'], ['0 C> OUT X {PHI1==2, PHI2==2} MAY']),
    (['INTEGER A(9)', 'CALL S(A(1),A(2))', 'K=A(2)', 'END', 'SUBROUTINE S(M,N)', 'M=1', 'N=2', 'END'], ['0 C> OUT N {} MAY', '1', '2', ' OUT N {M==1} MAY']),
    (['CALL S(K,K)', 'L=K', 'END', 'SUBROUTINE S(M,N)', 'M=1', 'L=N', 'END'], []),
    (['INTEGER A(9)', 'READ *,K', 'CALL S(A,K+1)', 'PRINT *,A(K)', 'END', 'SUBROUTINE S(X,N)', 'INTEGER X(9)', 'X(N)=0', 'X(N-1)=0', 'END'], ['0 C> OUT X {PHI1+1==N} MAY']),
    (['INTEGER A(9)', 'CALL S(A,2)', 'PRINT *,A(2)', 'END', 'SUBROUTINE S(X,K)', 'INTEGER X(*)', 'X(K)=0', 'X(K+1)=0', 'END'], ['0 C> OUT X {K==2, PHI1==2} + {K==1, PHI1==2} MAY']),
    # more CALLs than one: all of them count
    (['INTEGER A(9)', 'CALL S(A)', 'K=A(1)', 'CALL S(A)', 'K=A(3)', 'END', 'SUBROUTINE S(X)', 'INTEGER X(9)', 'X(1)=0', 'X(2)=0', 'X(3)=0', 'X(4)=0', 'END'],
     ['0 C> OUT X {PHI1==1} + {PHI1==3} MAY', ' OUT X {PHI1==3} MAY', '4']),
    (['INTEGER A(9),B(9)', 'CALL S(A)', 'CALL T(B)', 'K=A(1)+B(2)', 'END', 'SUBROUTINE S(X)', 'INTEGER X(9)', 'CALL T(X)', 'END', 'SUBROUTINE T(Y)', 'INTEGER Y(9)', 'Y(1)=0', 'Y(2)=0', 'END'], ['0 C> OUT X {PHI1==1} MAY', '0 C> OUT Y {PHI1==1} + {PHI1==2} MAY']),
    # blocks of other layouts: other shapes, parts, and units without a variable
    (['COMMON /B/ M(2,3)', 'CALL S', 'K=M(2,2)', 'END', 'SUBROUTINE S', 'COMMON /B/ L(6)', 'L(3)=0', 'L(4)=0', 'END'], []),
    (['COMMON /B/ M(6)', 'CALL S', 'K=M(4)', 'END', 'SUBROUTINE S', 'COMMON /B/ I,J(2),L(3)', 'I=0', 'J(1)=0', 'L(1)=0', 'L(2)=0', 'END'], ['0 C> OUT J {PHI1==1} MAY', '0 C> OUT L {PHI1==1} + {PHI1==2} MAY']),
    (['COMMON /B/ M(6)', 'CALL S', 'K=M(5)', 'END', 'SUBROUTINE S', 'COMMON /B/ I,J(2)', 'I=0', 'J(1)=0', 'CALL T', 'END', 'SUBROUTINE T', 'COMMON /B/ I(6)', 'I(4)=0', 'I(5)=0', 'END'], ['0 C> OUT /B/ {PHI1==4} + {PHI1==5} MAY', '0 C> OUT I {PHI1==4} + {PHI1==5} MAY']),
    (['COMMON /B/ M(6)', 'CALL S', 'K=M(2)', 'END', 'SUBROUTINE S', 'CALL T', 'END', 'SUBROUTINE T', 'COMMON /B/ I(6)', 'I(1)=0', 'I(2)=0', 'END'], []),
    (['COMMON /B/ N,A(9)', 'INTEGER A', 'CALL S', 'K=A(N)', 'END', 'SUBROUTINE S', 'COMMON /B/ N,A(9)', 'INTEGER A', 'A(1)=0', 'A(N)=0', 'END'], ['0 C> OUT A {PHI1==1} + {PHI1==N} MAY', ' OUT A {PHI1==N} MAY']),
    # saved locals, also of another module
    (['CALL S', 'CALL S', 'END', 'SUBROUTINE S', 'INTEGER K(3)', 'SAVE K', 'J=K(2)', 'K(1)=0', 'K(2)=0', 'END'], ['1 C> OUT S:K {PHI1==2} MAY', '0 C> OUT K {PHI1==2} MAY']),
    (['CALL S', 'CALL T', 'CALL S', 'END', 'SUBROUTINE S', 'INTEGER K(3)', 'SAVE K', 'J=K(2)', 'K(1)=0', 'K(2)=0', 'END', 'SUBROUTINE T', 'CALL S', 'END'], []),
    (['CALL T', 'CALL U', 'CALL T', 'END', 'SUBROUTINE S', 'SAVE K', 'J=K', 'K=1', 'END', 'SUBROUTINE T', 'CALL S', 'END', 'SUBROUTINE U', 'COMMON /B/ N', 'N=1', 'CALL V', 'END', 'SUBROUTINE V', 'CALL S', 'END'], ['2 C> OUT S:K {N==1} MAY', '0 C> OUT K {} MAY']),
    # READ, and values that are read in the same statement
    (['READ *,K,L', 'PRINT *,K', 'END'], ['1', ' OUT K {} MAY', '2']),
]


def out_programs(seeds):
    """The programs by hand, those of IN, and then random ones of these seeds: statements or a text, and lines that must be printed."""
    yield from BY_HAND
    for statements, _ in INS:
        yield statements, []
    programs = load('programs')
    for seed in seeds:
        yield CallMaker(seed).program(), []
        yield Maker(seed).program(), []
        try:
            yield programs.make(seed, PROFILES[seed % len(PROFILES)])[0], []
        except (KeyError, IndexError, ValueError):
            pass
