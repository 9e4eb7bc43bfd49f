C a whole array for a variable, as second argument
      INTEGER I(2)
      CALL S(1,I)
      END
      SUBROUTINE S(J,K)
      END
