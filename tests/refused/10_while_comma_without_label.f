C a DO WHILE without a label has no comma
      DO , WHILE (I.EQ.1)
      END DO
      END
