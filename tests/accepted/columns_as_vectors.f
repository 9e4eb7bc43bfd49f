C a subroutine gets each column of an array
      INTEGER A(10,20)
      DO J=1,20
      CALL COL(A(1,J),10)
      END DO
      PRINT *,A(3,4)
      END
      SUBROUTINE COL(X,N)
      INTEGER X(N)
      DO K=1,N
      X(K)=K
      END DO
      END
