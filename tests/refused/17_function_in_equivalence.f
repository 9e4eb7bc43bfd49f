C the name of a reference is also in EQUIVALENCE
      EQUIVALENCE (NF,J)
      I=NF(1)
      END
      FUNCTION NF(K)
      NF=K
      END
