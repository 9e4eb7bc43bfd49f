C the name of a reference is also in an argument of itself
      I=NF(NF(1))
      END
      FUNCTION NF(K)
      NF=K
      END
