C the test of a DO WHILE is LOGICAL
      DO WHILE (I)
      END DO
      END
