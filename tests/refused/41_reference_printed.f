C a reference in a PRINT
      PRINT *,NF(3)
      END
      FUNCTION NF(K)
      NF=K
      END
