C the label of a DO WHILE is a number of 32 bits
      DO 9999999999 WHILE (I.EQ.1)
      END DO
      END
