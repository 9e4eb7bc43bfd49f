C a DO WHILE has its test alone
      DO WHILE (I.EQ.1) THEN
      END DO
      END
