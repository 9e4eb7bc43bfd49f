C the first module with a fault, though the second has another code
      X=1
      END
      SUBROUTINE S
      I=.TRUE.
      END
