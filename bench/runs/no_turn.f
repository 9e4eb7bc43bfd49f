C DO without a turn
      PROGRAM P
      DO I=5,1
      PRINT *,I
      END DO
      PRINT *,I
      END
