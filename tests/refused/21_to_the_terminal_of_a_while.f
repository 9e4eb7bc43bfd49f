C a GO TO to the last statement of a DO WHILE, from outside
      GO TO 10
      DO 10 WHILE (I.LT.9)
10    I=I+1
      END
