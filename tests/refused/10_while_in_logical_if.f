C a DO WHILE in a logical IF
      IF (I.EQ.1) DO WHILE (I.EQ.1)
      END DO
      END
