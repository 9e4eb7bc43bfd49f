C the same, by the name of the second main program
      PROGRAM P
      END
      PROGRAM Q
      END
      SUBROUTINE Q
      END
