C a declaration after a DO WHILE
      DO WHILE (I.LT.9)
      END DO
      INTEGER J
      END
