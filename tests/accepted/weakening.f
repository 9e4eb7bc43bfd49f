C a number past what a row holds: its row is lost, and the precondition
C is WEAK
      READ *,I
      J=2147483647*I
      K=2147483647*J
      L=2147483647*K
      PRINT *,L
      END
