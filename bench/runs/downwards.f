C DO with the step -2
      PROGRAM P
      K=0
      DO I=5,1,-2
      K=10*K+I
      END DO
      PRINT *,K,I
      END
