C a GO TO to 0, in a logical IF
      IF (I.EQ.1) GO TO 0
      END
