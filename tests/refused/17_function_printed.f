C the name of a reference is also printed
      I=NF(1)
      PRINT *,NF
      END
      FUNCTION NF(K)
      NF=K
      END
