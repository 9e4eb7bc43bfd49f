C functions that call subroutines and refer to functions, with arguments that
C they change, arrays and COMMON
      COMMON /B/ N
      INTEGER A(4)
      N=2
      DO I=1,4
      A(I)=0
      END DO
      J=5
      K=ISUM(A,J)
      PRINT *,K,J,N,A(3)
      END
      FUNCTION ISUM(A,J)
      INTEGER A(4)
      COMMON /B/ N
      CALL FILL(A,J)
      J=J+1
      N=N+1
      I=IONE(A(3))
      ISUM=I+A(N)
      END
      SUBROUTINE FILL(A,J)
      INTEGER A(4)
      DO I=1,4
      A(I)=J
      END DO
      END
      FUNCTION IONE(K)
      K=K+1
      IONE=K
      END
