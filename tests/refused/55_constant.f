C an INTEGER constant for a LOGICAL
      PARAMETER (N=1)
      CALL S(N)
      END
      SUBROUTINE S(L)
      LOGICAL L
      END
