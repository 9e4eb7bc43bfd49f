C a DO WHILE that would end a DO
      DO 10 I=1,3
10    DO WHILE (J.LT.9)
      END DO
      END
