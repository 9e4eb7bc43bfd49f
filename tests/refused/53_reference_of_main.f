C a reference of the main program
      PROGRAM NMAIN
      CALL S
      END
      SUBROUTINE S
      I=NMAIN(1)
      END
