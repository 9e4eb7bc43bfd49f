C a logical IF with each statement that it may have
      LOGICAL L
      INTEGER A(3)
      IF (I.EQ.3) J=4
      IF (L) PRINT *,I
      IF (I.EQ.1) CALL S(A,K)
      IF (I.EQ.1) READ *,K
      IF (I.EQ.1) CONTINUE
      IF (A(1).EQ.(2)) WRITE(*,*) 'x(=,y'
      IF (I.EQ.K) A(I)=2
      IF (L) GO TO 10
      IF (I.EQ.1) STOP 3
10    CONTINUE
      END
      SUBROUTINE S(B,N)
      INTEGER B(*)
      END
