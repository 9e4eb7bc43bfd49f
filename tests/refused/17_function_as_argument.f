C the name of a reference is also an argument
      I=NF(1)
      CALL S(NF)
      END
      FUNCTION NF(K)
      NF=K
      END
