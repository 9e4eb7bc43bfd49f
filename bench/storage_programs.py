"""Programs for the symbols and the storage of modules: by hand, each with what must come out, in pairs of faults, and random ones.

A symbol is written as the driver cases_programs does: name, type, number of bounds, units, place, whether it is saved, initial values.
"""
import random

from programs import line

# The name, the statements before END, and lines of the answer: a refusal with its line and code, or symbols, worked out by hand.
BY_HAND = [
    # what shares a unit: in a block, by EQUIVALENCE there, and of two locals
    ('pairs that overlap', ['COMMON /B/ IA(3),I', 'INTEGER L(2)', 'EQUIVALENCE (I,J),(K,L(2))', 'PARAMETER (N=3)'],
     ['IA Int 1 3 /B/+0 false', 'I Int 0 1 /B/+3 false', 'J Int 0 1 /B/+3 false', 'N Int 0 1 =3 false']),
    # 30
    ('a name comes out REAL where it first stands', ['I=1', 'J=I+X', 'X=2'], ['refused 2 30']),
    ('REAL by a specification', ['INTEGER A', 'DIMENSION B(3)', 'INTEGER C'], ['refused 2 30']),
    ('REAL as a dummy', ['SUBROUTINE S(I,X)', 'I=1'], ['refused 1 30']),
    ('REAL within a subscript of DATA', ['INTEGER J(3)', 'DATA J(X)/1/'], ['refused 2 30']),
    ('IMPLICIT NONE leaves I REAL', ['IMPLICIT NONE', 'INTEGER J', 'J=1', 'I=J'], ['refused 4 30']),
    ('IMPLICIT NONE with all declared', ['IMPLICIT NONE', 'INTEGER X,Y(2)', 'LOGICAL Q', 'X=MAX(1,2)'],
     ['X Int 0 1 L1+0 false', 'Y Int 1 2 L2+0 false', 'Q Log 0 1 L3+0 false']),
    ('IMPLICIT with letters and ranges', ['IMPLICIT INTEGER(A-C,X),LOGICAL(L,P-Q)', 'A=B+C+X+I', 'L=P.OR.Q'],
     ['A Int 0 1 L1+0 false', 'B Int 0 1 L2+0 false', 'C Int 0 1 L3+0 false', 'X Int 0 1 L4+0 false', 'I Int 0 1 L5+0 false',
      'L Log 0 1 L6+0 false', 'P Log 0 1 L7+0 false', 'Q Log 0 1 L8+0 false']),
    ('a letter outside the ranges', ['IMPLICIT INTEGER(A-C,E-H)', 'A=H', 'D=1'], ['refused 3 30']),
    ('a declared type goes before IMPLICIT', ['IMPLICIT LOGICAL(I-K)', 'INTEGER J', 'I=J.EQ.1'], ['J Int 0 1 L1+0 false', 'I Log 0 1 L2+0 false']),
    ('IMPLICIT behind what it types', ['COMMON X', 'IMPLICIT INTEGER(X)', 'X=1'], ['X Int 0 1 //+0 false']),
    # 31
    ('a second type', ['INTEGER A', 'LOGICAL B', 'LOGICAL C,A'], ['refused 3 31']),
    ('the same type twice', ['INTEGER A', 'INTEGER B,A'], ['refused 2 31']),
    ('bounds twice', ['INTEGER J(3)', 'DIMENSION K(3),J(3)'], ['refused 2 31']),
    ('bounds in COMMON and in DIMENSION', ['COMMON J(2)', 'DIMENSION K(2)', 'DIMENSION J(2)'], ['refused 3 31']),
    ('a dummy that is listed twice', ['SUBROUTINE S(I,J,I)', 'J=1'], ['refused 1 31']),
    ('a type and bounds apart', ['INTEGER A', 'DIMENSION A(2)'], ['A Int 1 2 L1+0 false']),
    ('bounds in COMMON and a type', ['COMMON /B/ A(2),C', 'INTEGER A,C'], ['A Int 1 2 /B/+0 false', 'C Int 0 1 /B/+2 false']),
    # 32
    ('seven bounds', ['INTEGER A(1,2,1,2,1,2,1)'], ['A Int 7 8 L1+0 false']),
    ('eight bounds', ['INTEGER I', 'INTEGER A(1,1,1,1,1,1,1,1)'], ['refused 2 32']),
    ('lower bounds', ['INTEGER A(-3:-1),B(0:0),C(-2:2,5:6)'], ['A Int 1 3 L1+0 false', 'B Int 1 1 L2+0 false', 'C Int 2 10 L3+0 false']),
    ('the lowest bound', ['INTEGER A(-2147483647-1:-2147483647-1)'], ['A Int 1 1 L1+0 false']),
    ('a high bound below the low one', ['INTEGER A(2)', 'INTEGER B(0)'], ['refused 2 32']),
    ('a high bound below a negative one', ['INTEGER A(-1:-2)'], ['refused 1 32']),
    ('2147483647 units', ['INTEGER A(2147483647),B(-1073741824:1073741822),C(1,2147483647,1)'],
     ['A Int 1 2147483647 L1+0 false', 'B Int 1 2147483647 L2+0 false', 'C Int 3 2147483647 L3+0 false']),
    ('2147483648 units from 0', ['INTEGER A(0:2147483647)'], ['refused 1 32']),
    ('2147483648 units as a product', ['INTEGER A(2)', 'INTEGER B(65536,32768)'], ['refused 2 32']),
    ('2147483648 units from a negative bound', ['INTEGER A(-2147483647:0)'], ['refused 1 32']),
    ('more units than 64 bits count', ['INTEGER A(2147483647,2147483647,2147483647)'], ['refused 1 32']),
    ('a product of 0 in 64 bits', ['INTEGER A(2147483647)', 'INTEGER B(65536,65536,65536,65536)'], ['refused 2 32']),
    ('large units one behind the other', ['COMMON /B/ J(2147483647),K(2147483647),M'],
     ['J Int 1 2147483647 /B/+0 false', 'K Int 1 2147483647 /B/+2147483647 false', 'M Int 0 1 /B/+4294967294 false']),
    ('* of a local', ['INTEGER A(*)'], ['refused 1 32']),
    ('* of a COMMON variable', ['COMMON I', 'COMMON J(*)'], ['refused 2 32']),
    ('* of a dummy', ['SUBROUTINE S(J,K)', 'INTEGER J(2,*),K(0:*)'], ['J Int 2 0 D1 false', 'K Int 1 0 D2 false']),
    ('* that is not last', ['SUBROUTINE S(J)', 'INTEGER J(*,2)'], ['refused 2 32']),
    ('a LOGICAL bound', ['INTEGER A(2)', 'INTEGER B(.TRUE.)'], ['refused 2 32']),
    ('a bound of PARAMETER names that come later', ['INTEGER A(N:M)', 'PARAMETER (N=2,M=N+3)'],
     ['A Int 1 4 L1+0 false', 'N Int 0 1 =2 false', 'M Int 0 1 =5 false']),
    ('a bound that faults', ['PARAMETER (N=2)', 'INTEGER A(N/(N-2))'], ['refused 2 32']),
    ('a bound that overflows', ['PARAMETER (N=2147483647)', 'INTEGER A(N+1)'], ['refused 2 32']),
    ('an adjustable bound of a local', ['SUBROUTINE S(N)', 'INTEGER I,A(N)'], ['refused 2 32']),
    ('an adjustable bound of a COMMON variable', ['COMMON N', 'COMMON A(N)', 'INTEGER A'], ['refused 2 32']),
    ('adjustable bounds of dummies and COMMON', ['SUBROUTINE S(J,N)', 'COMMON M', 'INTEGER J(N,-M:2*(M+1))'], ['J Int 2 0 D1 false', 'N Int 0 1 D2 false', 'M Int 0 1 //+0 false']),
    ('an adjustable bound of a local variable', ['SUBROUTINE S(J)', 'INTEGER J(M)'], ['refused 2 32']),
    ('an adjustable bound of an array', ['SUBROUTINE S(J,N)', 'INTEGER N(2),J(N)'], ['refused 2 32']),
    ('an adjustable bound of a LOGICAL dummy', ['SUBROUTINE S(J,L)', 'LOGICAL L', 'INTEGER J(L)'], ['refused 3 32']),
    ('an adjustable bound of a function', ['SUBROUTINE S(J,N)', 'INTEGER J(MAX(N,2))'], ['refused 2 32']),
    ('constant bounds of a dummy', ['SUBROUTINE S(J,K)', 'INTEGER J(2,3)', 'DIMENSION K(0)'], ['refused 3 32']),
    # 33
    ('a chain of PARAMETER values', ['PARAMETER (I=2,J=I*3)', 'PARAMETER (K=J**2-I)'], ['I Int 0 1 =2 false', 'J Int 0 1 =6 false', 'K Int 0 1 =34 false']),
    ('a chain that is turned', ['INTEGER I', 'PARAMETER (N=M,M=1)'], ['refused 2 33']),
    ('LOGICAL values', ['LOGICAL L,M,N', 'PARAMETER (L=1.LT.2,M=.NOT.L,N=L.AND.M.OR.(L.EQV..TRUE.))'], ['L Log 0 1 =1 false', 'M Log 0 1 =0 false', 'N Log 0 1 =1 false']),
    ('a type behind PARAMETER', ['PARAMETER (L=.TRUE.)', 'LOGICAL L'], ['L Log 0 1 =1 false']),
    ('the ends of the numbers', ['PARAMETER (I=2147483647,J=-I-1,K=J+I)'], ['I Int 0 1 =2147483647 false', 'J Int 0 1 =-2147483648 false', 'K Int 0 1 =-1 false']),
    ('quotients', ['PARAMETER (I=(-7)/2,J=7/(-2),K=-7/2,M=(-7)/(-2))'],
     ['I Int 0 1 =-3 false', 'J Int 0 1 =-3 false', 'K Int 0 1 =-3 false', 'M Int 0 1 =3 false']),
    ('powers', ['PARAMETER (I=2**(-1),J=(-1)**(-3),K=0**0,M=2**30,N=(-2)**31)'],
     ['I Int 0 1 =0 false', 'J Int 0 1 =-1 false', 'K Int 0 1 =1 false', 'M Int 0 1 =1073741824 false', 'N Int 0 1 =-2147483648 false']),
    ('powers at the ends', ['PARAMETER (I=(-2)**(-31),J=1**(-2147483647-1),K=65535*32768)'], ['I Int 0 1 =0 false', 'J Int 0 1 =1 false', 'K Int 0 1 =2147450880 false']),
    ('overflow of a product', ['PARAMETER (N=65536*32768)'], ['refused 1 33']),
    ('powers from the right', ['PARAMETER (I=2**3**2,J=-2**2)'], ['I Int 0 1 =512 false', 'J Int 0 1 =-4 false']),
    ('division by zero', ['PARAMETER (N=1)', 'PARAMETER (M=N/(N-1))'], ['refused 2 33']),
    ('overflow of a sum', ['PARAMETER (N=2147483647)', 'PARAMETER (M=N+1)'], ['refused 2 33']),
    ('overflow of a quotient', ['PARAMETER (N=(-2147483647-1)/(-1))'], ['refused 1 33']),
    ('overflow of a sign', ['PARAMETER (N=-(-2147483647-1))'], ['refused 1 33']),
    ('overflow of a power', ['PARAMETER (N=2**31)'], ['refused 1 33']),
    ('overflow of a power of a negative exponent', ['PARAMETER (N=2**(-31))'], ['refused 1 33']),
    ('zero to a negative power', ['PARAMETER (N=0**(-1))'], ['refused 1 33']),
    ('a value of another type', ['PARAMETER (M=1)', 'PARAMETER (N=.TRUE.)'], ['refused 2 33']),
    ('a number for a LOGICAL', ['LOGICAL L', 'PARAMETER (L=3)'], ['refused 2 33']),
    ('a value that names a variable', ['I=1', 'END', 'PARAMETER (N=I)'], ['refused 3 33']),
    ('a value that names a function', ['PARAMETER (N=MAX(1,2))'], ['refused 1 33']),
    ('a PARAMETER twice', ['PARAMETER (N=1)', 'PARAMETER (M=2,N=1)'], ['refused 2 33']),
    ('a PARAMETER that is a dummy', ['SUBROUTINE S(N)', 'PARAMETER (N=1)'], ['refused 2 33']),
    # 34
    ('twice in one COMMON', ['COMMON I', 'COMMON J,K,J'], ['refused 2 34']),
    ('twice in two blocks', ['COMMON /B/ I', 'COMMON /C/ J,I'], ['refused 2 34']),
    ('a PARAMETER in COMMON', ['PARAMETER (N=1)', 'COMMON N'], ['refused 2 34']),
    ('a dummy in COMMON', ['SUBROUTINE S(I)', 'COMMON J', 'COMMON I'], ['refused 3 34']),
    ('one block in several statements', ['COMMON /B/ I,J(3)', 'COMMON K', 'COMMON /B/ L,M', 'DIMENSION L(2)'],
     ['I Int 0 1 /B/+0 false', 'J Int 1 3 /B/+1 false', 'K Int 0 1 //+0 false', 'L Int 1 2 /B/+4 false', 'M Int 0 1 /B/+6 false']),
    ('the blank block in turn with another', ['COMMON I//J/B/K//L'], ['I Int 0 1 //+0 false', 'J Int 0 1 //+1 false', 'K Int 0 1 /B/+0 false', 'L Int 0 1 //+2 false']),
    ('a block named as its variable', ['COMMON /I/ J,I', 'J=1'], ['J Int 0 1 /I/+0 false', 'I Int 0 1 /I/+1 false']),
    ('one block of two modules', ['COMMON /B/ I,J', 'END', 'SUBROUTINE S', 'COMMON /B/ J(2),I'],
     ['I Int 0 1 /B/+0 false', 'J Int 0 1 /B/+1 false', 'J Int 1 2 /B/+0 false', 'I Int 0 1 /B/+2 false']),
    # 35
    ('a chain of five scalars', ['EQUIVALENCE (I,J),(J,K),(K,L),(L,M)', 'I=1'],
     ['I Int 0 1 L1+0 false', 'J Int 0 1 L1+0 false', 'K Int 0 1 L1+0 false', 'L Int 0 1 L1+0 false', 'M Int 0 1 L1+0 false',
      '1~2 1~3 1~4 1~5 2~1 2~3 2~4 2~5 3~1 3~2 3~4 3~5 4~1 4~2 4~3 4~5 5~1 5~2 5~3 5~4 ']),
    ('a chain of four arrays', ['INTEGER I(4),J(4),K(4),L(4)', 'EQUIVALENCE (I(2),J(1)),(J(3),K(1)),(K(2),L(4))'],
     ['I Int 1 4 L1+0 false', 'J Int 1 4 L1+1 false', 'K Int 1 4 L1+3 false', 'L Int 1 4 L1+1 false']),
    ('a chain that goes back', ['INTEGER I(4),J(4),K(4),L(4)', 'EQUIVALENCE (I(1),J(4)),(J(1),K(4)),(K(1),L(4))'],
     ['I Int 1 4 L1+9 false', 'J Int 1 4 L1+6 false', 'K Int 1 4 L1+3 false', 'L Int 1 4 L1+0 false', '1~2 2~1 2~3 3~2 3~4 4~3 ']),
    ('two chains that are joined last', ['INTEGER I(3),J(3),K(3),L(3)', 'EQUIVALENCE (I(1),J(3)),(K(3),L(1))', 'EQUIVALENCE (L(3),J(1))'],
     ['I Int 1 3 L1+6 false', 'J Int 1 3 L1+4 false', 'K Int 1 3 L1+0 false', 'L Int 1 3 L1+2 false']),
    ('one group of four names', ['INTEGER J(3),K(2:4)', 'EQUIVALENCE (I,J(2),K(4),L)'],
     ['J Int 1 3 L1+1 false', 'K Int 1 3 L1+0 false', 'I Int 0 1 L1+2 false', 'L Int 0 1 L1+2 false']),
    ('groups are numbered by their first names', ['INTEGER J(2)', 'EQUIVALENCE (M,K)', 'I=J(1)+K'],
     ['J Int 1 2 L1+0 false', 'M Int 0 1 L2+0 false', 'K Int 0 1 L2+0 false', 'I Int 0 1 L3+0 false']),
    ('elements with negative bounds', ['INTEGER J(-3:3),K(-2:2,5:6)', 'EQUIVALENCE (J(-1),I),(K(0,6),L)'],
     ['J Int 1 7 L1+0 false', 'K Int 2 10 L2+0 false', 'I Int 0 1 L1+2 false', 'L Int 0 1 L2+7 false']),
    ('subscripts of PARAMETER names', ['PARAMETER (N=2)', 'INTEGER J(5)', 'EQUIVALENCE (J(2*N),I)'], ['J Int 1 5 L1+0 false', 'I Int 0 1 L1+3 false']),
    ('said twice', ['INTEGER J(3)', 'EQUIVALENCE (I,J(2))', 'EQUIVALENCE (J(2),I)'], ['J Int 1 3 L1+0 false', 'I Int 0 1 L1+1 false']),
    ('two elements of one array', ['INTEGER J(3)', 'EQUIVALENCE (J(1),J(2))'], ['refused 2 35']),
    ('a chain of four that contradicts', ['INTEGER I(2),J(2),K(2),L(2)', 'EQUIVALENCE (I(1),J(2)),(J(1),K(2))', 'EQUIVALENCE (K(1),L(2))', 'EQUIVALENCE (L(1),I(1))'], ['refused 4 35']),
    ('two variables of one block', ['COMMON I,J', 'EQUIVALENCE (I,J)'], ['refused 2 35']),
    ('two variables of one block as they lie', ['COMMON J(3),K', 'INTEGER M(4)', 'EQUIVALENCE (J(1),M(1)),(M(4),K)'],
     ['J Int 1 3 //+0 false', 'K Int 0 1 //+3 false', 'M Int 1 4 //+0 false']),
    ('variables of two blocks', ['COMMON /B/ I', 'COMMON /C/ J', 'EQUIVALENCE (I,J)'], ['refused 3 35']),
    ('two blocks by a local', ['COMMON /B/ I /C/ J', 'EQUIVALENCE (I,K)', 'EQUIVALENCE (K,J)'], ['refused 3 35']),
    ('a dummy in EQUIVALENCE', ['SUBROUTINE S(I)', 'EQUIVALENCE (I,J)'], ['refused 2 35']),
    ('a PARAMETER in EQUIVALENCE', ['PARAMETER (N=1)', 'EQUIVALENCE (J,N)'], ['refused 2 35']),
    ('a subscript above the bounds', ['INTEGER J(3)', 'EQUIVALENCE (I,J(4))'], ['refused 2 35']),
    ('a subscript below the bounds', ['INTEGER J(0:3)', 'EQUIVALENCE (I,J(-1))'], ['refused 2 35']),
    ('a second subscript above its bound', ['INTEGER J(3,2)', 'EQUIVALENCE (I,J(1,3))'], ['refused 2 35']),
    ('a subscript that is no constant', ['INTEGER J(3)', 'EQUIVALENCE (I,J(K))'], ['refused 2 35']),
    ('a subscript that faults', ['INTEGER J(3)', 'EQUIVALENCE (I,J(1/0))'], ['refused 2 35']),
    # 36
    ('a block that is longer at its end', ['COMMON /B/ I,K', 'INTEGER J(5)', 'EQUIVALENCE (K,J(1))'],
     ['I Int 0 1 /B/+0 false', 'K Int 0 1 /B/+1 false', 'J Int 1 5 /B/+1 false', '2~3 3~2 ']),
    ('a block that would begin earlier', ['COMMON I', 'INTEGER J(3)', 'EQUIVALENCE (I,J(2))'], ['refused 3 36']),
    ('a block that would begin earlier by a chain', ['COMMON I', 'INTEGER J(3)', 'EQUIVALENCE (J(3),K)', 'EQUIVALENCE (K,I)'], ['refused 4 36']),
    ('a local that reaches to the first unit', ['COMMON I,K', 'INTEGER J(3)', 'EQUIVALENCE (K,J(2))'],
     ['I Int 0 1 //+0 false', 'K Int 0 1 //+1 false', 'J Int 1 3 //+0 false', '1~3 2~3 3~1 3~2 ']),
    ('the first of two statements that extend back', ['COMMON I', 'INTEGER J(3),K(3)', 'EQUIVALENCE (I,K(2))', 'EQUIVALENCE (I,J(2))'], ['refused 3 36']),
    # 37
    ('repeats over an array that begins at 2', ['INTEGER J(2:6)', 'EQUIVALENCE (I,J(3))', 'DATA J/2*0,3*7/'], ['J Int 1 5 L1+0 true 0:2*0 2:3*7', 'I Int 0 1 L1+1 true', '1~2 2~1 ']),
    ('four values for five units', ['INTEGER J(2:6)', 'DATA J/2*0,2*7/'], ['refused 2 37']),
    ('six values for five units', ['INTEGER J(2:6)', 'DATA J/2*0,4*7/'], ['refused 2 37']),
    ('elements at the ends', ['INTEGER J(2:6)', 'DATA J(2),J(6)/1,2/'], ['J Int 1 5 L1+0 true 0:1*1 4:1*2']),
    ('an element before the first', ['INTEGER J(2:6)', 'DATA J(1)/1/'], ['refused 2 37']),
    ('an element behind the last', ['INTEGER J(2:6)', 'DATA J(7)/1/'], ['refused 2 37']),
    ('repeats over two arrays', ['INTEGER J(2,3),K(3)', 'DATA J,K/4*1,5*2/'], ['J Int 2 6 L1+0 true 0:4*1 4:2*2', 'K Int 1 3 L2+0 true 0:3*2']),
    ('elements in any order', ['INTEGER J(2,3)', 'DATA J(2,3)/6/ J(1,1),J(2,1)/1,2/'], ['J Int 2 6 L1+0 true 0:1*1 1:1*2 5:1*6']),
    ('equal neighbours are one run', ['INTEGER J(3)', 'DATA J(3)/7/', 'DATA J(1),J(2)/7,7/'], ['J Int 1 3 L1+0 true 0:3*7']),
    ('a value no times', ['DATA I,J/0*3,4,0*.TRUE.,5/'], ['I Int 0 1 L1+0 true 0:1*4', 'J Int 0 1 L2+0 true 0:1*5']),
    ('LOGICAL and signed values', ['LOGICAL L(3)', 'DATA L/.TRUE.,2*.FALSE./ I,J/-3,+3/'],
     ['L Log 1 3 L1+0 true 0:1*1 1:2*0', 'I Int 0 1 L2+0 true 0:1*-3', 'J Int 0 1 L3+0 true 0:1*3']),
    ('as many values as can be', ['INTEGER J(2147483647),K(2147483647)', 'DATA J,K/2147483647*1,2147483647*2/'],
     ['J Int 1 2147483647 L1+0 true 0:2147483647*1', 'K Int 1 2147483647 L2+0 true 0:2147483647*2']),
    ('values of one of a group', ['INTEGER J(3)', 'EQUIVALENCE (I,J(2)),(K,L)', 'DATA J(1)/1/'],
     ['J Int 1 3 L1+0 true 0:1*1', 'I Int 0 1 L1+1 true', 'K Int 0 1 L2+0 false', 'L Int 0 1 L2+0 false']),
    ('neighbours of a group', ['INTEGER J(3),K(3)', 'EQUIVALENCE (J(3),K(1))', 'DATA J/3*0/ K(2),K(3)/2*1/'],
     ['J Int 1 3 L1+0 true 0:3*0', 'K Int 1 3 L1+2 true 1:2*1']),
    ('a unit twice', ['DATA I/1/', 'DATA J/1/,I/2/'], ['refused 2 37']),
    ('an element and its array', ['INTEGER J(3)', 'DATA J(2)/1/', 'DATA J/3*0/'], ['refused 3 37']),
    ('a unit twice by EQUIVALENCE', ['INTEGER J(3),K(3)', 'EQUIVALENCE (J(3),K(1))', 'DATA J/3*0/', 'DATA K/3*1/'], ['refused 4 37']),
    ('a unit twice by EQUIVALENCE in one statement', ['EQUIVALENCE (I,J)', 'DATA I/1/ J/1/'], ['refused 2 37']),
    ('a unit twice in one list', ['INTEGER J(2)', 'DATA J(1),J(2),J(1)/3*0/'], ['refused 2 37']),
    ('too many values', ['DATA J/1/', 'DATA I/1,2/'], ['refused 2 37']),
    ('too few values', ['INTEGER J(3)', 'DATA J/2*1/'], ['refused 2 37']),
    ('a LOGICAL value of an INTEGER', ['DATA J/1/', 'DATA I/.TRUE./'], ['refused 2 37']),
    ('a number for a LOGICAL variable', ['LOGICAL L', 'DATA L/1/'], ['refused 2 37']),
    ('values of two types over one array', ['INTEGER J(3)', 'DATA J/2*1,.TRUE./'], ['refused 2 37']),
    ('DATA of a dummy', ['SUBROUTINE S(I)', 'DATA I/1/'], ['refused 2 37']),
    ('DATA of a COMMON variable', ['COMMON I', 'DATA I/1/'], ['refused 2 37']),
    ('DATA of a block by EQUIVALENCE', ['COMMON I', 'EQUIVALENCE (I,J)', 'DATA J/1/'], ['refused 3 37']),
    ('DATA of a PARAMETER', ['PARAMETER (N=1)', 'DATA N/1/'], ['refused 2 37']),
    ('DATA outside the bounds', ['INTEGER J(2)', 'DATA J(3)/1/'], ['refused 2 37']),
    ('DATA with a subscript that is no constant', ['INTEGER J(2)', 'DATA J(K)/1/'], ['refused 2 37']),
    ('DATA with a subscript that faults', ['INTEGER J(2)', 'DATA J(1/0)/1/'], ['refused 2 37']),
    # SAVE
    ('SAVE alone', ['SUBROUTINE S(N)', 'COMMON I', 'PARAMETER (M=1)', 'SAVE', 'J=K'],
     ['N Int 0 1 D1 false', 'I Int 0 1 //+0 false', 'M Int 0 1 =1 false', 'J Int 0 1 L1+0 true', 'K Int 0 1 L2+0 true']),
    ('SAVE of one of a group', ['EQUIVALENCE (I,J),(K,L)', 'SAVE J,M'],
     ['I Int 0 1 L1+0 true', 'J Int 0 1 L1+0 true', 'K Int 0 1 L2+0 false', 'L Int 0 1 L2+0 false', 'M Int 0 1 L3+0 true']),
    ('SAVE of a block', ['COMMON /B/ I', 'SAVE /B/', 'J=1'], ['I Int 0 1 /B/+0 false', 'J Int 0 1 L1+0 false']),
    # 38
    ('too few subscripts', ['INTEGER J(2,2)', 'I=1', 'J(1)=1'], ['refused 3 38']),
    ('too many subscripts', ['INTEGER J(2)', 'PRINT *,J(1,2)'], ['refused 2 38']),
    ('one argument of MOD', ['I=1', 'I=MOD(I)'], ['refused 2 38']),
    ('one argument of MAX', ['I=MAX(1)'], ['refused 1 38']),
    ('two arguments of ABS', ['I=ABS(1,2)'], ['refused 1 38']),
    ('a function without arguments', ['I=1', 'I=MAX'], ['refused 2 38']),
    ('subscripts of EQUIVALENCE', ['INTEGER J(2,2)', 'EQUIVALENCE (J(1),I)'], ['refused 2 38']),
    ('subscripts of DATA', ['INTEGER J(2,2)', 'DATA J(1)/1/'], ['refused 2 38']),
    # 39
    ('a LOGICAL in a sum', ['LOGICAL L', 'I=1', 'I=L+1'], ['refused 3 39']),
    ('a number in .AND.', ['LOGICAL L', 'L=L.AND.1'], ['refused 2 39']),
    ('.NOT. of a number', ['LOGICAL L', 'L=.NOT.I'], ['refused 2 39']),
    ('a sign of a LOGICAL', ['I=-.TRUE.'], ['refused 1 39']),
    ('LOGICALs compared', ['LOGICAL L', 'IF (L.EQ.L) I=1'], ['refused 2 39']),
    ('a LOGICAL to an INTEGER', ['I=.TRUE.'], ['refused 1 39']),
    ('a number to a LOGICAL', ['LOGICAL L', 'L=1'], ['refused 2 39']),
    ('a number as a test', ['I=1', 'IF (I) J=1'], ['refused 2 39']),
    ('a number as a test of ELSE IF', ['IF (I.EQ.1) THEN', 'J=1', 'ELSE IF (I) THEN', 'J=2', 'END IF'], ['refused 3 39']),
    ('a LOGICAL subscript', ['INTEGER J(2)', 'J(.TRUE.)=1'], ['refused 2 39']),
    ('a LOGICAL end of a DO', ['DO I=1,.TRUE.', 'END DO'], ['refused 1 39']),
    ('a LOGICAL variable of a DO', ['LOGICAL L', 'DO L=1,2', 'END DO'], ['refused 2 39']),
    ('a LOGICAL argument of a function', ['I=MAX(1,2,.TRUE.)'], ['refused 1 39']),
    ('characters in a sum', ["I=1", "I='A'"], ['refused 2 39']),
    ('a LOGICAL subscript of EQUIVALENCE', ['INTEGER J(2)', 'EQUIVALENCE (J(.TRUE.),I)'], ['refused 2 39']),
    ('a LOGICAL subscript of DATA', ['INTEGER J(2)', 'DATA J(.TRUE.)/1/'], ['refused 2 39']),
    # 40 and functions as names
    ('a PARAMETER that is assigned', ['PARAMETER (N=1)', 'I=1', 'N=2'], ['refused 3 40']),
    ('a PARAMETER that is read', ['PARAMETER (N=1)', 'READ *,I,N'], ['refused 2 40']),
    ('a PARAMETER as the variable of a DO', ['PARAMETER (N=1)', 'DO N=1,2', 'END DO'], ['refused 2 40']),
    ('a function that is assigned', ['I=1', 'MAX=3'], ['refused 2 40']),
    ('a function that is read', ['READ *,MOD'], ['refused 1 40']),
    ('a function as the variable of a DO', ['DO MIN=1,2', 'END DO'], ['refused 1 40']),
    ('a dummy named as a function', ['SUBROUTINE S(MIN)', 'I=1', 'MIN=I'], ['refused 3 40']),
    ('functions are no symbols', ['I=MAX(MOD(J,3),ABS(K),IABS(L),MIN(1,2),MAX0(1,2),MIN0(1,2,3))'],
     ['I Int 0 1 L1+0 false', 'J Int 0 1 L2+0 false', 'K Int 0 1 L3+0 false', 'L Int 0 1 L4+0 false']),
    ('an array named as a function', ['INTEGER MAX(3),ABS(2)', 'MAX(1)=ABS(2)'], ['MAX Int 1 3 L1+0 false', 'ABS Int 1 2 L2+0 false']),
    ('an array named as a function and called so', ['INTEGER MAX(3)', 'I=MAX(1,2)'], ['refused 2 38']),
    ('a scalar named as a function', ['INTEGER MOD', 'I=MOD(5,3)'], ['MOD Int 0 1 L1+0 false', 'I Int 0 1 L2+0 false']),
    ('a scalar named as a function without arguments', ['INTEGER MOD', 'I=MOD'], ['refused 2 38']),
    ('a COMMON variable named as a function', ['COMMON /B/ MAX0,MIN0(2)', 'MIN0(1)=MAX0(1,2)'], ['MAX0 Int 0 1 /B/+0 false', 'MIN0 Int 1 2 /B/+1 false']),
    # 41
    ('subscripts on a scalar', ['J=1', 'I(1)=1'], ['refused 2 41']),
    ('subscripts on a scalar within', ['J=1', 'J=I(2)+1'], ['refused 2 41']),
    ('a whole array assigned', ['INTEGER J(2)', 'J=1'], ['refused 2 41']),
    ('a whole array in a sum', ['INTEGER J(2)', 'I=J+1'], ['refused 2 41']),
    ('a whole array printed', ['INTEGER J(2)', 'PRINT *,J'], ['refused 2 41']),
    ('a whole array as an actual argument', ['SUBROUTINE S(K)', 'INTEGER J(2)', 'CALL T(J,K)'], ['K Int 0 1 D1 false', 'J Int 1 2 L1+0 false']),
    ('a whole array in a sum that is an actual argument', ['INTEGER J(2)', 'CALL T(J+1)'], ['refused 2 41']),
    ('an array as a PARAMETER', ['INTEGER J(2)', 'PARAMETER (J=1)'], ['refused 2 41']),
    ('subscripts of EQUIVALENCE on a scalar', ['EQUIVALENCE (I(1),J)'], ['refused 1 41']),
    ('subscripts of DATA on a scalar', ['DATA I(1)/1/'], ['refused 1 41']),
    # functions of the program: the name is the last dummy there, and a local of a module that refers to it
    ('the name of a function', ['FUNCTION NF(K)', 'NF=K'], ['K Int 0 1 D1 false', 'NF Int 0 1 D2 false']),
    ('the name of a LOGICAL FUNCTION', ['LOGICAL FUNCTION NF()', 'NF=.TRUE.'], ['NF Log 0 1 D1 false']),
    ('the name of an INTEGER FUNCTION', ['INTEGER FUNCTION X(L)', 'X=L'], ['L Int 0 1 D1 false', 'X Int 0 1 D2 false']),
    ('a function by IMPLICIT', ['FUNCTION X(L)', 'IMPLICIT LOGICAL(L-X)', 'X=L'], ['L Log 0 1 D1 false', 'X Log 0 1 D2 false']),
    ('names of a reference in the order of the text', ['J=1', 'K=NF(L,M+J)'], ['J Int 0 1 L1+0 false', 'K Int 0 1 L2+0 false', 'NF Int 0 1 L3+0 false', 'L Int 0 1 L4+0 false', 'M Int 0 1 L5+0 false']),
    ('a reference in a logical IF', ['INTEGER A(2)', 'IF (J.EQ.1) A(K)=NF()'], ['A Int 1 2 L1+0 false', 'J Int 0 1 L2+0 false', 'K Int 0 1 L3+0 false', 'NF Int 0 1 L4+0 false']),
    ('a function that is REAL', ['FUNCTION X(K)', 'K=1'], ['refused 1 30']), ('a reference that is REAL', ['I=1', 'I=X(1)'], ['refused 2 30']),
    ('a function of two types', ['INTEGER FUNCTION NF(K)', 'LOGICAL NF'], ['refused 2 31']), ('a function among its dummies', ['FUNCTION NF(NF)', 'K=1'], ['refused 1 31']),
    ('a function as a constant', ['FUNCTION NF(K)', 'PARAMETER (NF=1)'], ['refused 2 33']), ('a function in COMMON', ['FUNCTION NF(K)', 'COMMON NF'], ['refused 2 34']),
    ('a function in EQUIVALENCE', ['FUNCTION NF(K)', 'EQUIVALENCE (NF,J)'], ['refused 2 35']), ('a function in DATA', ['FUNCTION NF(K)', 'DATA NF/1/'], ['refused 2 37']),
    ('the value of a LOGICAL function', ['LOGICAL NF', 'I=NF(1)'], ['refused 2 39']), ('a LOGICAL argument of a reference', ['I=NF(1+.TRUE.)'], ['refused 1 39']),
    ('the value of a function to a constant', ['PARAMETER (N=1)', 'N=NF(1)'], ['refused 2 40']), ('the value of a function to an array', ['INTEGER A(2)', 'A=NF(1)'], ['refused 2 41']),
    ('the value of a function in a sum', ['I=NF(1)+1'], ['refused 1 41']), ('a test of a DO WHILE', ['DO WHILE (I)', 'END DO'], ['refused 1 39']), ('an array as a test', ['LOGICAL L(2)', 'DO WHILE (L)', 'END DO'], ['refused 2 41']),
    ('names of a DO WHILE', ['DO WHILE (J.LT.K)', 'J=J+1', 'END DO'], ['J Int 0 1 L1+0 false', 'K Int 0 1 L2+0 false']),
    # two codes of one statement: the lowest, where 35 and 36 come after all others
    ('30 and 32', ['DIMENSION X(0)'], ['refused 1 30']), ('30 and 33', ['PARAMETER (X=K)'], ['refused 1 30']), ('30 and 34', ['COMMON X,X'], ['refused 1 30']),
    ('30 and 35', ['EQUIVALENCE (I,X),(X,J(2))', 'INTEGER J(2)'], ['refused 1 30']), ('30 and 37', ['DATA X/1,2/'], ['refused 1 30']),
    ('30 and 38', ['I=X+MOD(1)'], ['refused 1 30']), ('30 and 39', ['I=X+.TRUE.'], ['refused 1 30']), ('30 and 40', ['MAX=X'], ['refused 1 30']),
    ('30 and 41', ['I=X(1)'], ['refused 1 30']), ('31 and 32', ['INTEGER J(2),K(0),J(3)'], ['refused 1 31']), ('31 and 34', ['COMMON J(2),J(3)'], ['refused 1 31']),
    ('32 and 34', ['COMMON J(0),K,K'], ['refused 1 32']), ('32 and 38', ['INTEGER J(MOD(1))'], ['refused 1 32']), ('32 and 39', ['INTEGER J(1+.TRUE.)'], ['refused 1 32']),
    ('32 and 41', ['INTEGER J(K(1))'], ['refused 1 32']), ('33 and 38', ['PARAMETER (N=MOD(1))'], ['refused 1 33']), ('33 and 39', ['PARAMETER (N=1+.TRUE.)'], ['refused 1 33']),
    ('33 and 41', ['INTEGER J(2)', 'PARAMETER (J=K)'], ['refused 2 33']), ('35 and 36', ['COMMON I', 'INTEGER J(3)', 'EQUIVALENCE (I,J(2),J(3))'], ['refused 3 35']),
    ('35 and 38', ['INTEGER J(2),K(2,2)', 'EQUIVALENCE (I,J(3)),(I,K(1))'], ['refused 2 38']), ('35 and 39', ['INTEGER J(2)', 'EQUIVALENCE (I,J(3)),(I,J(.TRUE.))'], ['refused 2 39']),
    ('35 and 41', ['INTEGER J(2)', 'EQUIVALENCE (I,J(3)),(I,K(1))'], ['refused 2 41']), ('30 and 36', ['COMMON I', 'INTEGER J(2)', 'EQUIVALENCE (I,J(2)),(K,X)'], ['refused 3 30']),
    ('36 and 38', ['COMMON I', 'INTEGER J(2)', 'EQUIVALENCE (I,J(2)),(K,J(1,1))'], ['refused 3 38']),
    ('36 and 39', ['COMMON I', 'INTEGER J(2)', 'EQUIVALENCE (I,J(2)),(K,J(.TRUE.))'], ['refused 3 39']),
    ('36 and 41', ['COMMON I', 'INTEGER J(2)', 'EQUIVALENCE (I,J(2)),(K,M(1))'], ['refused 3 41']), ('37 and 38', ['INTEGER J(2)', 'DATA J(1,1)/1/ K/1,2/'], ['refused 2 37']),
    ('37 and 39', ['INTEGER J(2)', 'DATA J(.TRUE.)/1/ K/1,2/'], ['refused 2 37']), ('37 and 41', ['DATA J(1)/1/ K/1,2/'], ['refused 1 37']),
    ('38 and 39', ['I=MOD(1)+.TRUE.'], ['refused 1 38']), ('38 and 40', ['MAX=MOD(1)'], ['refused 1 38']), ('38 and 41', ['I(1)=MOD(1)'], ['refused 1 38']),
    ('39 and 40', ['PARAMETER (N=1)', 'N=.TRUE.'], ['refused 2 39']), ('39 and 41', ['I(1)=.TRUE.'], ['refused 1 39']), ('40 and 41', ['PARAMETER (N=1)', 'N(1)=2'], ['refused 2 40']),
    # modules
    ('the first module that has a refusal', ['I=1', 'END', 'SUBROUTINE S', 'X=1', 'END', 'SUBROUTINE T', 'I=.TRUE.'], ['I Int 0 1 L1+0 false', 'refused 4 30', 'refused 7 39']),
    ('36 of a module before others of the next', ['COMMON I', 'INTEGER J(3)', 'EQUIVALENCE (I,J(2))', 'END', 'SUBROUTINE S', 'X=1'], ['refused 3 36', 'refused 6 30']),
]

# For each code a specification that has it alone, with those before it; @ stands for a letter of its own in each.
SPECIFIED = {
    30: ([], 'COMMON /@B/ @'), 31: (['INTEGER I@'], 'INTEGER I@'), 32: ([], 'INTEGER I@(0)'), 33: ([], 'PARAMETER (I@=1/0)'), 34: ([], 'COMMON /@B/ I@,I@'),
    35: (['INTEGER I@(2)'], 'EQUIVALENCE (I@(1),I@(2))'), 36: (['COMMON /@B/ I@', 'INTEGER J@(2)'], 'EQUIVALENCE (I@,J@(2))'), 37: ([], 'DATA I@/1,2/'),
    38: (['INTEGER I@(2,2)'], 'DATA I@(1)/1/'), 39: (['INTEGER I@(2)'], 'DATA I@(.TRUE.)/1/'), 41: ([], 'DATA I@(1)/1/'),
}
# The same of executable statements.
EXECUTED = {30: ([], '@=1'), 38: ([], 'I@=MOD(1)'), 39: ([], 'I@=.TRUE.'), 40: (['PARAMETER (I@=1)'], 'I@=2'), 41: ([], 'I@(1)=1')}
LAST = (35, 36)


def in_pairs():
    """Two faults on two lines: the earlier one is the answer, where 35 and 36 come after all others."""
    def put(form, letter):
        return [text.replace('@', letter) for text in form[0]], form[1].replace('@', letter)

    def pair(m, n, first, second):
        (before, one), (also, two) = put(first, 'X'), put(second, 'Y')
        line_of_m = len(before) + len(also) + 1
        code, number = (n, line_of_m + 1) if m in LAST and n not in LAST else (m, line_of_m)
        return f'{m} before {n}', before + also + [one, two], [f'refused {number} {code}']

    return ([pair(m, n, SPECIFIED[m], SPECIFIED[n]) for m in SPECIFIED for n in SPECIFIED]
            + [pair(m, n, EXECUTED[m], EXECUTED[n]) for m in EXECUTED for n in EXECUTED]
            + [pair(m, n, SPECIFIED[m], EXECUTED[n]) for m in SPECIFIED for n in EXECUTED])


class Maker:
    """Random modules of specifications and a few statements, with a share of faults."""

    NAMES = ['I', 'J', 'K', 'L', 'M', 'N', 'IA', 'JB', 'KC']

    def __init__(self, seed):
        self.pick = random.Random(seed)

    def chance(self, p):
        return self.pick.random() < p

    def declared(self):
        """Each name with its bounds, or none; its use in a COMMON or PARAMETER; types."""
        self.bounds = {name: [] for name in self.NAMES}
        for name in self.pick.sample(self.NAMES, 4):
            lows = [self.pick.choice([None, None, 1, 0, -1, -2]) for _ in range(self.pick.choice([1, 1, 1, 2, 2, 3]))]
            self.bounds[name] = [(1 if low is None else low, (1 if low is None else low) + self.pick.randint(-1 if self.chance(.03) else 0, 4), low) for low in lows]
        left = self.pick.sample(self.NAMES, len(self.NAMES))
        self.common, self.constant, self.logical = left[:self.pick.randint(0, 3)], left[3:3 + self.pick.randint(0, 1)], left[4:4 + self.pick.randint(0, 2)]

    def entity(self, name):
        def extent(low, high, given):
            return f'{high}' if given is None else f'{low}:{high}'
        return name + ('(' + ','.join(extent(*b) for b in self.bounds[name]) + ')' if self.bounds[name] else '')

    def item(self, name):
        """The name or an element."""
        bounds = self.bounds[name]
        if not bounds and not self.chance(.03) or self.chance(.03):
            return name
        return name + '(' + ','.join(str(self.pick.randint(low, max(low, high)) + (self.chance(.02))) for low, high, _ in bounds or [(1, 1, 1)]) + ')'

    def some_name(self):
        free = [n for n in self.NAMES if n not in self.constant]
        return self.pick.choice(self.NAMES if self.chance(.03) else free)

    def equivalence(self):
        groups = [[self.item(self.some_name()) for _ in range(self.pick.choice([2, 2, 3]))] for _ in range(self.pick.choice([1, 1, 2]))]
        return 'EQUIVALENCE ' + ','.join('(' + ','.join(g) + ')' for g in groups)

    def value(self, name):
        logical = name in self.logical
        return self.pick.choice(['.TRUE.', '.FALSE.']) if logical != self.chance(.02) else str(self.pick.choice([0, 1, 7, '-3']))

    def data(self, name):
        units = 1
        for low, high, _ in self.bounds[name]:
            units *= max(0, high - low + 1)
        whole = self.chance(.6)
        left, values = units if whole else 1, []
        while left > 0:
            count = self.pick.randint(1, left)
            values.append((f'{count}*' if count > 1 or self.chance(.2) else '') + self.value(name))
            left -= count
        if self.chance(.05):
            values.append(self.value(name))
        return f'DATA {name if whole else self.item(name)}/{",".join(values)}/' if values else 'SAVE ' + name

    def expr(self, depth=2):
        if depth == 0 or self.chance(.4):
            return self.pick.choice(['1', '7', 'I', 'N', self.item(self.pick.choice(self.NAMES))])
        return f'{self.expr(depth - 1)}{self.pick.choice("+-*/")}{self.expr(depth - 1)}' if self.chance(.8) else f'MAX({self.expr(depth - 1)},2)'

    def statement(self):
        kind = self.pick.random()
        target = self.item(self.some_name())
        if kind < .5:
            return f'{target}={self.expr()}'
        if kind < .7:
            return f'IF ({self.expr(1)}.LT.{self.expr(1)}) {target}=1'
        return f'PRINT *,{self.expr()},{self.expr()}' if kind < .9 else f'READ *,{target}'

    def module(self, title):
        self.declared()
        types = [f'{"LOGICAL" if n in self.logical else "INTEGER"} {n if n in self.common else self.entity(n)}' for n in self.NAMES if self.bounds[n] or n in self.logical]
        others = [f'COMMON {self.pick.choice(["", "/B/", "/C/"])}{self.entity(n)}' for n in self.common]
        others += [f'PARAMETER ({n}={self.pick.choice(["1", "2*3", "2**5-7", "7/2"])})' for n in self.constant if not self.bounds[n] and n not in self.logical]
        others += [self.equivalence() for _ in range(self.pick.choice([0, 1, 1, 2]))]
        free = [n for n in self.NAMES if n not in self.common + self.constant]
        others += [self.data(n) for n in self.pick.sample(free, self.pick.choice([0, 1, 2]))]
        others += [self.pick.choice(['SAVE', 'SAVE ' + self.pick.choice(free)])] if self.chance(.2) else []
        lines = types + others
        if self.chance(.5):
            self.pick.shuffle(lines)
        return ([title] if title else []) + lines + [self.statement() for _ in range(self.pick.choice([0, 0, 1, 2]))] + ['END']

    def program(self):
        statements = self.module('')
        if self.chance(.3):
            statements += self.module('SUBROUTINE S(' + ','.join(self.pick.sample(self.NAMES, self.pick.randint(1, 2))) + ')')
        return statements[:-1]


def text_of(statements):
    return '\n'.join(part for text in statements + ['END'] for part in line(text)) + '\n'


def random_programs(count, seed=1):
    maker = Maker(seed)
    return [(f'random {k}', maker.program(), []) for k in range(1, count + 1)]
