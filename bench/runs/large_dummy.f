C an array dummy that is larger than what its actual offers: fault 3
      PROGRAM P
      INTEGER J(3)
      CALL S(2,J)
      PRINT *,J(2)
      CALL S(3,J(2))
      END
      SUBROUTINE S(N,K)
      INTEGER K(N)
      K(N)=N
      END
