C an argument for none
      CALL S(1)
      END
      SUBROUTINE S
      END
