C READ to the end of the input: fault 4
      PROGRAM P
      K=0
10    READ *,I
      K=K+I
      PRINT *,K
      GO TO 10
      END
