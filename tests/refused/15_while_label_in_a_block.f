C the label of a DO WHILE in a block IF
      DO 10 WHILE (I.LT.9)
      IF (I.EQ.2) THEN
10    I=I+1
      END IF
      END
