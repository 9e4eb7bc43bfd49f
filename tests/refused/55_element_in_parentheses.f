C an element in parentheses is an expression
      INTEGER I(2)
      CALL S((I(1)))
      END
      SUBROUTINE S(J)
      INTEGER J(2)
      END
