C bounds: where no run comes each reference is safe that could be, and no other one
      INTEGER A(10),K(10)
      DATA K/10*1/
      N=1
      IF (N.GT.2) THEN
      A(99)=1
      A(N-1)=A(K(1))
      IF (A(0).EQ.1) A(11)=K(A(1))
      END IF
      IF (A(20).EQ.1.AND.N.EQ.2) A(20)=3
      DO I=5,4
      A(I+99)=1
      END DO
      STOP
      A(12)=1
      END
