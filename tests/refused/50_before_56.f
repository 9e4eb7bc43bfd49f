C no main program comes before recursion
      SUBROUTINE S
      CALL S
      END
