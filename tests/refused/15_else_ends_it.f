C a DO in an arm of a block IF, and its label at the ELSE
      IF (I.EQ.1) THEN
      DO 10 I=1,2
10    ELSE
      END IF
      END
