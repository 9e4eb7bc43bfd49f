C PRINT in the body of a DO
      DO I=1,5
      PRINT *,I
      END DO
      END
