C the name of a reference is also read
      I=NF(1)
      READ *,NF
      END
      FUNCTION NF(K)
      NF=K
      END
