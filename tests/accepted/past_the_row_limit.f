C factors and constants past what a row holds: the row is left out, and
C the precondition is WEAK
      I=2147483647*J
      J=2147483647*I
      K=2147483647*J
      L=2147483647*K
      PRINT *,L
      END
