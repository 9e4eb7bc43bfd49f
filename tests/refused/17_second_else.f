C a second ELSE
      IF (I.EQ.1) THEN
      ELSE
      ELSE
      END IF
      END
