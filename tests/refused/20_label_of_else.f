C the label of an ELSE is none to go to
      GO TO 10
      IF (I.EQ.1) THEN
10    ELSE
      END IF
      END
