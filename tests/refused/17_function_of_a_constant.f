C the name of a reference is also a PARAMETER
      PARAMETER (NF=1)
      I=NF(1)
      END
      FUNCTION NF(K)
      NF=K
      END
