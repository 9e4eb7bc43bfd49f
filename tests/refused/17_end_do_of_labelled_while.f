C a labelled DO WHILE ends at its label
      DO 10 WHILE (I.LT.9)
10    I=I+1
      END DO
      END
