C a DO WHILE that the ELSE around it leaves open
      IF (I.EQ.1) THEN
      DO WHILE (I.LT.9)
      ELSE
      END DO
      END IF
      END
