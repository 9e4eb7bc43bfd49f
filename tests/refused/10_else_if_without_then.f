C ELSE IF without THEN
      IF (I.EQ.1) THEN
      ELSE IF (I.EQ.2)
      END IF
      END
