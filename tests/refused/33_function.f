C the name of a FUNCTION as a PARAMETER
      I=NF(1)
      END
      FUNCTION NF(K)
      PARAMETER (NF=1)
      END
