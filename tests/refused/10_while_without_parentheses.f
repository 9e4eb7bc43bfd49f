C the test of a DO WHILE is in parentheses
      DO WHILE I.EQ.1
      END DO
      END
