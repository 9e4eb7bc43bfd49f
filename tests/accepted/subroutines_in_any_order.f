C subroutines that are called, one before it is written
      CALL S(I,J)
      END
      SUBROUTINE T
      END
      SUBROUTINE S(K,L)
      INTEGER L
      CALL T
      K=L
      END
