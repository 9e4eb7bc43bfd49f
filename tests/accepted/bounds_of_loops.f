C bounds: the variable of a DO against each end of each dimension
      INTEGER A(10),B(-3:3),C(4,5),D(2,3,4)
      DO I=1,10
      A(I)=I
      END DO
      DO I=1,9
      A(I+1)=A(I)
      END DO
      DO I=1,10
      A(I+1)=A(I)
      END DO
      DO I=0,9
      A(I)=A(I+1)
      END DO
      DO I=9,1,-2
      A(I)=A(10-I)+A(11-I)+A(I-1)
      END DO
      DO I=-3,3
      B(I)=B(-I)
      B(I-1)=1
      END DO
      DO J=1,5
      DO I=1,4
      C(I,J)=C(I+1,J)
      C(I,J)=C(I,J+1)
      C(J,I)=C(5-I,6-J)
      END DO
      END DO
      DO K=1,4
      DO J=1,K
      D(1,J,K)=D(2,1,J)
      END DO
      END DO
      DO I=1,5
      A(2*I)=A(2*I-1)
      A(2*I+1)=A(3*I)
      END DO
      PRINT *,A(10),B(3),C(4,5),D(2,3,4),A(11),B(-4),C(0,1)
      END
