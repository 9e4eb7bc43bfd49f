C a block IF that the END DO of a DO WHILE leaves open
      DO WHILE (I.LT.9)
      IF (I.EQ.2) THEN
      END DO
      END IF
      END
