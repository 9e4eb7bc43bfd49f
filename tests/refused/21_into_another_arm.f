C a GO TO from one arm of a block IF into another
      IF (I.EQ.1) THEN
10    I=1
      ELSE
      GO TO 10
      END IF
      END
