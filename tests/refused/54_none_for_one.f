C no argument for one
      CALL S
      END
      SUBROUTINE S(I)
      END
