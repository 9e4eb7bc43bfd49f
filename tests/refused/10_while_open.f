C a DO WHILE whose parenthesis stays open
      DO WHILE ((I.EQ.1)
      END DO
      END
