C a CALL that does not fit, in a main program after the module that
C calls itself
      SUBROUTINE S
      CALL S
      END
      CALL S(1)
      END
