C the name of a reference with two types
      INTEGER NF
      LOGICAL NF
      I=NF(1)
      END
      FUNCTION NF(K)
      NF=K
      END
