"""Programs by hand, of which the command writes what is read before it is written; and random ones."""
from region_programs import CallMaker, Maker, PROFILES
from reference import load

# a module that is called, with arrays and a cell in COMMON
HEAD = ['SUBROUTINE S(N)', 'INTEGER A(9),B(9),L(3)', 'COMMON /B/ A,B,L,M']


def module(*body):
    return HEAD + list(body) + ['END', 'END']


# a program as statements, and lines that must be printed of it, worked out from the rules
BY_HAND = [
    # what is written is not read first; what only may be is; another element; the same one again
    (module('A(1)=0', 'K=A(1)'), ['1', '2', ' IN A {PHI1==1} EXACT']),
    (module('A(L(2))=0', 'K=A(1)'), ['0 C> IN A {PHI1==1} MAY', '0 C> IN L {PHI1==2} EXACT']),
    (module('A(2)=0', 'K=A(1)'), ['0 C> IN A {PHI1==1} EXACT']),
    (module('A(1)=A(1)+1', 'K=A(1)'), ['0 C> IN A {PHI1==1} EXACT']),
    (module('A(N)=0', 'K=A(M)'), ['0 C> IN A {PHI1==M, N+1<=M} + {PHI1==M, M+1<=N} EXACT', '0 C> IN M {} EXACT', '0 C> IN N {} EXACT']),
    # a cell that changes before it is read in a subscript
    (module('M=3', 'K=A(M)'), ['0 C> IN A {PHI1==3} EXACT']),
    (module('M=N', 'A(M)=0', 'K=A(N)'), ['0 C> IN N {} EXACT']),
    # a variable that shares units with one that is written is never certain
    (['SUBROUTINE S', 'COMMON /B/ N', 'INTEGER K(1)', 'EQUIVALENCE (N,K(1))', 'K(1)=N', 'L=N', 'END', 'END'], ['0 C> IN N {} MAY']),
    (['SUBROUTINE S', 'COMMON /B/ N', 'INTEGER K(1)', 'EQUIVALENCE (N,K(1))', 'K(1)=0', 'L=N', 'END', 'END'], ['0 C> IN N {} MAY']),
    # READ and PRINT
    (module('READ *,K,A(K)'), ['1']),
    (module('READ *,A(N),N'), ['0 C> IN N {} EXACT']),
    (module('READ *,N,A(N),M'), []),
    (module('READ *,L(1),A(L(1)),B(L(2))'), ['0 C> IN L {PHI1==2} EXACT']),
    (module('PRINT *,A(N),N'), ['0 C> IN A {PHI1==N} EXACT', '0 C> IN N {} EXACT']),
    # tests: each arm where it is reached
    (module('IF (N.LE.3) K=A(1)', 'IF (N.NE.3) K=A(2)'), ['0 C> IN A {PHI1==1, N<=3} + {PHI1==2} MAY', '1', ' IN A {PHI1==1, N<=3} EXACT', '2', ' IN A {PHI1==2} MAY']),
    (module('IF (N.GT.0) THEN', 'A(1)=0', 'ELSE IF (A(2).GT.0) THEN', 'K=A(1)', 'ELSE', 'K=A(3)', 'END IF'),
     [' IN A {PHI1==2, N<=0} + {PHI1==1, N<=0} + {PHI1==3, N<=0} MAY', '0 C> IN N {} EXACT']),
    (module('IF (N.GT.0) A(1)=0', 'K=A(1)'), ['0 C> IN A {PHI1==1, N<=0} EXACT']),
    # a DO: what earlier iterations wrote; up, down, over a distance of two
    (module('DO I=2,N', 'A(I)=A(I-1)+B(I)', 'END DO'),
     ['1 C> IN N {} EXACT', '1 C> IN A {PHI1==1, 2<=N} EXACT', '1 C> IN B {2<=PHI1, PHI1<=N} EXACT', '0 C> IN A {PHI1==1, 2<=N} EXACT', '2', ' IN A {PHI1+1==I} EXACT']),
    (module('DO I=8,1,-1', 'A(I)=A(I+1)', 'END DO'), ['1 C> IN A {PHI1==9} EXACT']),
    (module('DO I=3,N', 'A(I)=A(I-2)', 'END DO'), ['1 C> IN A {1<=PHI1, PHI1<=2, PHI1+2<=N} EXACT']),
    (module('DO I=1,8', 'A(I)=A(I+1)', 'END DO'), ['1 C> IN A {2<=PHI1, PHI1<=9} EXACT']),
    (module('DO I=1,9', 'A(I)=I', 'END DO', 'K=A(4)'), ['1', ' IN I {} EXACT']),
    # a step of two, or of a variable; a first value that changes, or has no form
    (module('DO I=3,9,2', 'A(I)=A(I-2)', 'END DO'), ['1 C> IN A {1<=PHI1, PHI1<=7} MAY']),
    (module('DO I=9,3,-2', 'A(I-2)=A(I)', 'END DO'), ['1 C> IN A {3<=PHI1, PHI1<=9} MAY']),
    (module('DO I=2,9,N', 'A(I)=A(I-1)', 'END DO'), ['1 C> IN A {} MAY', '1 C> IN N {} EXACT']),
    (module('DO I=N,9', 'A(I)=A(I-1)', 'N=N+1', 'END DO'), ['1 C> IN A {PHI1<=8, N<=PHI1+1} MAY', '1 C> IN N {} EXACT']),
    (module('DO I=N*N,9', 'A(I)=A(I-1)', 'END DO'), ['1 C> IN A {PHI1<=8} MAY']),
    (module('DO I=2,N', 'A(I)=A(I-1)', 'N=N-1', 'END DO'), ['1 C> IN N {} EXACT', '1 C> IN A {PHI1==1, 2<=N} EXACT']),
    (module('DO I=2,N*N', 'A(I)=A(I-1)', 'END DO'), ['1 C> IN A {PHI1==1} MAY', '1 C> IN N {} EXACT']),
    # what is written names another cell that changes, or is not certain, or lies in strides
    (module('M=0', 'DO I=2,9', 'M=M+1', 'A(M)=A(I)', 'END DO'), ['2 C> IN A {2<=PHI1, PHI1<=9} MAY']),
    (module('DO I=2,9', 'A(L(1))=A(I-1)', 'END DO'), ['1 C> IN A {1<=PHI1, PHI1<=8} MAY', '1 C> IN L {PHI1==1} EXACT']),
    (module('DO I=1,4', 'A(2*I)=A(I)', 'END DO'), ['1 C> IN A {1<=PHI1, PHI1<=4} MAY']),
    # an index that is no analysed scalar: its range is known, but not what earlier iterations wrote
    (['SUBROUTINE S(X)', 'INTEGER X(9)', 'COMMON /B/ N', 'EQUIVALENCE (I,II)', 'DO I=1,N', 'K=X(1)', 'END DO', 'END', 'END'], ['0 C> IN X {PHI1==1, 1<=N} EXACT', '0 C> IN N {} EXACT']),
    (['SUBROUTINE S(X)', 'INTEGER X(9)', 'COMMON /B/ N', 'EQUIVALENCE (I,II)', 'DO I=2,N', 'X(1)=X(1)', 'END DO', 'END', 'END'], ['0 C> IN X {PHI1==1, 2<=N} MAY']),
    (['SUBROUTINE S(X)', 'INTEGER X(9)', 'COMMON /B/ II,JJ', 'EQUIVALENCE (I,II)', 'DO I=1,3', 'K=II', 'END DO', 'END', 'END'], ['0 C> IN II {} MAY']),
    # two names of an array
    (['SUBROUTINE S', 'INTEGER A(9),E(9)', 'COMMON /B/ A', 'EQUIVALENCE (A(2),E(1))', 'DO I=2,9', 'A(I)=E(I)', 'END DO', 'END', 'END'], ['0 C> IN E {2<=PHI1, PHI1<=9} MAY']),
    # what each iteration writes before it reads
    (module('DO I=1,N', 'DO J=1,9', 'B(J)=A(J)+I', 'END DO', 'DO J=1,9', 'A(J)=B(J)', 'END DO', 'END DO'),
     ['1 C> IN N {} EXACT', '1 C> IN A {1<=N, 1<=PHI1, PHI1<=9} EXACT', '2 C> IN I {} EXACT', '4 C> IN B {1<=PHI1, PHI1<=9} EXACT']),
    (module('DO I=1,9', 'K=B(I)', 'L(1)=K', 'A(I)=K+L(1)', 'END DO'), ['1 C> IN B {1<=PHI1, PHI1<=9} EXACT']),
    # loops without iterations, or of one
    (module('DO I=5,1', 'K=A(I)', 'END DO', 'DO I=3,3', 'K=A(I)', 'END DO'), ['0 C> IN A {PHI1==3} EXACT']),
    # statements in any order; a RETURN before the end, and a STOP
    (module('10 A(M)=A(M+1)', 'M=M+1', 'IF (M.LT.9) GO TO 10'), ['0 C> IN A {} MAY', '0 C> IN M {} MAY', '1', ' IN A {PHI1==M+1} EXACT', ' IN M {} EXACT']),
    (module('A(1)=0', 'IF (N.EQ.1) RETURN', 'K=A(1)'), ['0 C> IN A {PHI1==1} MAY', '0 C> IN N {} MAY']),
    (module('A(1)=0', 'IF (N.EQ.1) STOP', 'K=A(1)', 'RETURN'), ['0 C> IN N {} EXACT']),
    (module('DO I=1,9', 'IF (N.EQ.I) GO TO 10', 'K=A(I)', '10 CONTINUE', 'END DO'), ['1 C> IN A {1<=PHI1, PHI1<=9} MAY']),
    # the bounds of arrays are read where a module is entered, before anything is written
    (['INTEGER B(9)', 'CALL S(B,9)', 'END', 'SUBROUTINE S(A,N)', 'INTEGER A(N)', 'N=0', 'A(1)=1', 'END'], ['0 C> IN N {} EXACT']),
    # saved locals are seen, others not; a cell of theirs that a region names
    (['CALL S', 'END', 'SUBROUTINE S', 'INTEGER K(3)', 'SAVE K', 'K(1)=K(2)', 'J=K(1)+I', 'END'], ['0 C> IN K {PHI1==2} EXACT', '1 C> IN S:K {PHI1==2} EXACT']),
    (['INTEGER A(9)', 'CALL S(A)', 'END', 'SUBROUTINE S(X)', 'INTEGER X(9)', 'DATA K /3/', 'J=X(K)', 'END'], ['0 C> IN K {} EXACT', '0 C> IN X {} MAY']),
    # CALLs: what the actuals read, and what the callee reads first
    (['INTEGER A(9)', 'CALL S(A,9)', 'K=A(1)', 'END', 'SUBROUTINE S(X,N)', 'INTEGER X(N)', 'X(1)=0', 'DO I=2,N', 'X(I)=X(I)+N', 'END DO', 'END'],
     ['0 C> IN N {} EXACT', '0 C> IN X {2<=PHI1, PHI1<=N} EXACT', '1 C> IN A {2<=PHI1, PHI1<=9} EXACT']),
    (['INTEGER A(9)', 'CALL S(K,A(K+1),(L),I+J)', 'END', 'SUBROUTINE S(M,N,I,J)', 'M=N+I+J', 'END'],
     ['1 C> IN A {PHI1==K+1} EXACT', '1 C> IN I {} EXACT', '1 C> IN J {} EXACT', '1 C> IN K {} EXACT', '1 C> IN L {} EXACT']),
    (['INTEGER A(9)', 'DO I=1,8', 'CALL S(A(I),A(I+1))', 'END DO', 'END', 'SUBROUTINE S(M,N)', 'N=M', 'END'], ['1 C> IN A {PHI1==1} EXACT', '2 C> IN A {PHI1==I} EXACT', '2 C> IN I {} EXACT']),
    (['COMMON /B/ N,A(9)', 'INTEGER A', 'CALL S', 'CALL T', 'END', 'SUBROUTINE S', 'COMMON /B/ M,X(9)', 'INTEGER X', 'X(1)=M', 'END', 'SUBROUTINE T', 'COMMON /B/ M,X(9)',
      'INTEGER X', 'M=X(1)', 'END'], ['1 C> IN N {} EXACT', '2 C> IN A {PHI1==1} EXACT']),
]


def in_programs(seeds):
    """The programs by hand, and then random ones of these seeds: statements or a text, and lines that must be printed."""
    yield from BY_HAND
    programs = load('programs')
    for seed in seeds:
        yield Maker(seed).program(), []
        yield CallMaker(seed).program(), []
        try:
            yield programs.make(seed, PROFILES[seed % len(PROFILES)])[0], []
        except (KeyError, IndexError, ValueError):
            pass
