C a label that a DO WHILE has too
10    DO WHILE (I.EQ.1)
      END DO
10    I=1
      END
