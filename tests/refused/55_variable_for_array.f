C a variable for an array
      CALL S(I)
      END
      SUBROUTINE S(J)
      INTEGER J(2)
      END
