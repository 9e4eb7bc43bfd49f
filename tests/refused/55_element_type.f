C an element of a LOGICAL array for an INTEGER
      LOGICAL L(2)
      CALL S(L(1))
      END
      SUBROUTINE S(J)
      END
