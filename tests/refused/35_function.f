C the name of a FUNCTION in EQUIVALENCE
      I=NF(1)
      END
      FUNCTION NF(K)
      EQUIVALENCE (NF,J)
      END
