C two arguments for one
      CALL S(1,2)
      END
      SUBROUTINE S(I)
      END
