C a DO WHILE that would end at a GO TO
      DO 10 WHILE (J.LT.9)
10    GO TO 20
20    CONTINUE
      END
