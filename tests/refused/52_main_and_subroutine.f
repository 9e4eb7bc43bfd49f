C a subroutine with the name of the main program
      PROGRAM P
      END
      SUBROUTINE P
      END
