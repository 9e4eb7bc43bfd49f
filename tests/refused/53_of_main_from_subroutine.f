C a CALL of the main program by a subroutine
      PROGRAM P
      END
      SUBROUTINE S
      CALL P
      END
