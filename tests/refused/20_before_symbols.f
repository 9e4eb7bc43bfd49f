C a missing label in the second module comes before symbols in the first
      X=1
      END
      SUBROUTINE S
      GO TO 10
      END
