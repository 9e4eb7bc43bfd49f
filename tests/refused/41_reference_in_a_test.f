C a reference in a test
      IF (NF(3).EQ.4) I=1
      END
      FUNCTION NF(K)
      NF=K
      END
