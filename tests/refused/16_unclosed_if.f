C a block IF without END IF
      I=1
      IF (I.EQ.1) THEN
      END
