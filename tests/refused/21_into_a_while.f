C a GO TO into the body of a DO WHILE
      GO TO 10
      DO WHILE (I.LT.9)
10    I=I+1
      END DO
      END
