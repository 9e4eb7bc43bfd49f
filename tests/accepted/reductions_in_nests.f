C a DO in a DO: each is reduced by its own mark, whatever the other one is
      INTEGER A(10,10),B(10)
      DATA A,B/100*3,10*0/
      K=0
      DO J=1,10
      DO I=1,10
      K=K+A(I,J)
      END DO
      END DO
C the outer one is parallel with copies of L
      DO J=1,10
      L=0
      DO I=1,10
      L=L+A(I,J)
      END DO
      B(J)=L
      END DO
C the outer one is serial
      DO J=2,10
      B(J)=B(J-1)
      DO I=1,10
      B(J)=B(J)+A(I,J)
      K=K+I
      END DO
      END DO
      PRINT *,K,B(10)
      END
