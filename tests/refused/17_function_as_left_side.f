C the name of a reference is also what is assigned
      NF=NF(1)
      END
      FUNCTION NF(K)
      NF=K
      END
