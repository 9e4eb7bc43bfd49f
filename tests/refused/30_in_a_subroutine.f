C such a name in a subroutine, and no main program, which comes later
      SUBROUTINE S
      X=1
      END
