C a LOGICAL variable for an INTEGER
      LOGICAL L
      CALL S(L)
      END
      SUBROUTINE S(I)
      END
