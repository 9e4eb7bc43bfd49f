C a GO TO back into a block IF
      IF (I.EQ.1) THEN
10    I=1
      END IF
      GO TO 10
      END
