C a constant for an array
      PARAMETER (N=1)
      CALL S(N)
      END
      SUBROUTINE S(J)
      INTEGER J(2)
      END
