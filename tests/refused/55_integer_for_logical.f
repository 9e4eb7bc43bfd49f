C an INTEGER variable for a LOGICAL
      CALL S(I)
      END
      SUBROUTINE S(L)
      LOGICAL L
      END
