"""Programs by hand and random, of which crates/cases_programs prints the conflicts of the iterations of loops."""
from region_programs import region_programs

# a program as statements, and lines that must be printed of it, worked out from the rules. A variable has one line with the number of the DO and whether it may be
# private, where the DO has no OUT regions, then where what it accesses stands for them; then three: the earlier iteration writes and the later reads, the earlier
# reads and the later writes, both write. The cells that an iteration changes, with the index, are AUX variables, ascending: of the earlier iteration first.
BY_HAND = [
    # each iteration its own element; one to the next; the other way; an element for all
    (['INTEGER A(9)', 'DO I=1,9', 'A(I)=A(I)+1', 'END DO', 'END'], ['1 A carried carried', ' -']),
    (['INTEGER A(9)', 'DO I=2,9', 'A(I)=A(I-1)', 'END DO', 'END'], [' {AUX0==PHI1, AUX1==PHI1+1, 2<=PHI1, PHI1<=8}']),
    (['INTEGER A(9)', 'DO I=1,8', 'A(I)=A(I+1)', 'END DO', 'END'], [' {AUX0+1==PHI1, AUX1==PHI1, 2<=PHI1, PHI1<=8}']),
    (['INTEGER A(9)', 'DO I=1,8', 'A(3)=I', 'END DO', 'END'], ['1 A yes live', ' {PHI1==3, 1<=AUX0, AUX0<=8, 1<=AUX1, AUX1<=8, AUX0+1<=AUX1}']),
    # down: the later iteration has the smaller index
    (['INTEGER A(9)', 'DO I=9,2,-1', 'A(I)=A(I-1)', 'END DO', 'END'], [' {AUX0==PHI1+1, AUX1==PHI1, 2<=PHI1, PHI1<=8}']),
    # every second element; even ones are written and odd ones read
    (['INTEGER A(99)', 'DO I=2,98,2', 'A(I)=A(I+1)', 'END DO', 'END'], ['1 A carried carried', ' -']),
    (['INTEGER A(99)', 'DO I=3,98,2', 'A(I)=A(I-2)', 'END DO', 'END'], []),
    # a step that is no constant says nothing of the order
    (['INTEGER A(9)', 'READ *,K', 'DO I=1,9,K', 'A(I)=A(I)+1', 'END DO', 'END'], []),
    # a cell that the body changes is another in each iteration
    (['INTEGER A(99)', 'K=1', 'DO I=1,9', 'A(K)=I', 'K=K+2', 'END DO', 'END'], ['2 A yes live', '2 K carried carried']),
    (['INTEGER A(99)', 'READ *,K', 'DO I=1,9', 'A(I)=A(I+K)', 'END DO', 'END'], []),
    # names that share storage; saved and common ones
    (['INTEGER A(9),B(9)', 'EQUIVALENCE (A(1),B(2))', 'DO I=2,8', 'A(I)=B(I)', 'END DO', 'END'], ['1 A name name']),
    (['INTEGER A(9)', 'COMMON /X/ A', 'DO I=1,9', 'A(10-I)=A(I)', 'END DO', 'END'], ['1 A name name']),
    (['INTEGER A(9)', 'SAVE A', 'DATA K /1/', 'DO I=1,9', 'A(I)=K', 'K=I', 'END DO', 'END'], ['1 A name name', '1 K name name']),
    # written first, then read; read only where no iteration comes; written only where the DO does not come
    (['INTEGER A(9),B(9)', 'DO I=1,9', 'A(1)=I', 'B(I)=A(1)', 'END DO', 'END'], ['1 A yes live', '1 B yes live']),
    (['INTEGER A(9)', 'DO I=1,9', 'IF (I.GE.10) K=A(1)', 'A(1)=I', 'END DO', 'END'], ['1 A yes live']),
    (['INTEGER A(9)', 'N=3', 'DO I=1,9', 'IF (N.GE.4) A(1)=I', 'END DO', 'END'], ['2 A yes yes', ' -']),
    # a body without statements, and one that no iteration reaches
    (['DO I=1,9', 'END DO', 'END'], []),
    (['INTEGER A(9)', 'DO I=5,1', 'A(1)=I', 'END DO', 'END'], []),
    # an inner loop, and an index that is not tracked
    (['INTEGER A(9,9)', 'DO I=2,9', 'DO J=2,9', 'A(I,J)=A(I-1,J-1)', 'END DO', 'END DO', 'END'], ['1 J yes live', '2 A carried carried']),
    (['INTEGER A(9)', 'EQUIVALENCE (I,II)', 'DO I=1,9', 'A(I)=A(I)+II', 'END DO', 'END'], []),
    # a GO TO back: nothing is known of what the body changes
    (['INTEGER A(9)', 'DO I=1,9', 'K=1', '10 A(I)=K', 'K=K+1', 'IF (K.LT.5) GO TO 10', 'END DO', 'END'], ['1 A yes live', '1 K carried carried']),
    # CALLs: each writes its own element; each the same one; what it writes is in COMMON
    (['INTEGER A(9)', 'DO I=1,9', 'CALL S(A,I)', 'END DO', 'END', 'SUBROUTINE S(X,K)', 'INTEGER X(9)', 'X(K)=K', 'END'], ['1 A yes live', ' -']),
    (['INTEGER A(9)', 'DO I=1,9', 'CALL S(A,2)', 'END DO', 'END', 'SUBROUTINE S(X,K)', 'INTEGER X(9)', 'X(K)=X(K)+1', 'END'], ['1 A carried carried']),
    (['COMMON /B/ N', 'DO I=1,9', 'CALL S', 'END DO', 'END', 'SUBROUTINE S', 'COMMON /B/ M', 'M=M+1', 'END'], ['1 N name name']),
    # the DO of a module that is called
    (['CALL S(3)', 'END', 'SUBROUTINE S(N)', 'INTEGER A(9)', 'DO I=1,N', 'A(I)=A(I+N)', 'END DO', 'END'], ['1 A carried carried', ' -']),
]


def loop_programs(seeds):
    """Programs by hand, then random ones with loops: those of array regions, with the seeds after these."""
    yield from BY_HAND
    for statements, _ in region_programs(seeds):
        text = statements if isinstance(statements, str) else '\n'.join(statements)
        if 'DO ' in text:
            yield statements, []
