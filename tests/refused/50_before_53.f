C no main program comes before a CALL of what is not there
      SUBROUTINE S
      CALL T
      END
