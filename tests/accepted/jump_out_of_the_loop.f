C a GO TO out of a DO: the index may have any of its values
      DO I=1,5
      IF (I.EQ.3) GO TO 20
      END DO
20    PRINT *,I
      END
