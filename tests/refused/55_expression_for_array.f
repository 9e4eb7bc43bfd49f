C an expression for an array
      CALL S(1)
      END
      SUBROUTINE S(J)
      INTEGER J(2)
      END
