C SERIAL InputOutput: each iteration prints
      DO I=1,9
      PRINT *,I*I
      END DO
      END
