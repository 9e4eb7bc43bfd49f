C what a CALL changes in its arguments, through two subroutines, and a
C subroutine that nobody calls
      I=1
      CALL S(I,J)
      PRINT *,I,J
      END
      SUBROUTINE T(K)
      K=K+1
      END
      SUBROUTINE S(K,L)
      INTEGER L
      CALL T(K)
      L=K
      END
      SUBROUTINE U(K)
      K=1
      END
