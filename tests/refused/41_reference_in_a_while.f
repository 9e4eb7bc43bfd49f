C a reference in the test of a DO WHILE
      DO WHILE (NF(3).EQ.4)
      END DO
      END
      FUNCTION NF(K)
      NF=K
      END
