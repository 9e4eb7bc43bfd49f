C a whole array for a variable
      INTEGER I(2)
      CALL S(I)
      END
      SUBROUTINE S(J)
      END
