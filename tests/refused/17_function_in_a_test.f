C the name of a reference is also in the test of a DO WHILE
      DO WHILE (NF(1).LT.3)
      END DO
      I=NF(1)
      END
      FUNCTION NF(K)
      NF=K
      END
