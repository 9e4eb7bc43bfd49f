C GO TO leaves a DO
      PROGRAM P
      DO I=1,5
      IF (I.EQ.3) GO TO 20
      END DO
      I=0
20    PRINT *,I
      END
