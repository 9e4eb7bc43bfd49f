C the name of a reference is also in its own arguments
      I=NF(NF)
      END
      FUNCTION NF(K)
      NF=K
      END
