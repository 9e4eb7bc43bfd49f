C a DO WHILE without its end
      DO WHILE (I.LT.9)
      I=I+1
      END
