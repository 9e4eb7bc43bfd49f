C the label of the DO stands in a block within it
      DO 10 I=1,2
      IF (I.EQ.1) THEN
10    CONTINUE
      END IF
      END
