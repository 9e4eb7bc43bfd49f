C the name of a FUNCTION in DATA
      I=NF(1)
      END
      FUNCTION NF(K)
      DATA NF/1/
      END
