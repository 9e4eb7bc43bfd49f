C such a name in the second module
      I=1
      END
      SUBROUTINE S
      J=Y
      END
