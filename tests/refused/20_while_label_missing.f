C a GO TO out of a DO WHILE to no statement
      DO WHILE (I.LT.9)
      GO TO 10
      END DO
      END
