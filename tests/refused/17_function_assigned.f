C the name of a reference is also assigned
      I=NF(1)
      NF=2
      END
      FUNCTION NF(K)
      NF=K
      END
