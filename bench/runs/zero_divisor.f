C a zero divisor: fault 1
      PROGRAM P
      K=0
      PRINT *,7/2,K
      I=1/K
      PRINT *,I
      END
