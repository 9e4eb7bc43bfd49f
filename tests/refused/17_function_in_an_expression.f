C the name of a reference is also in an expression
      I=NF(1)
      I=NF(1)+1
      END
      FUNCTION NF(K)
      NF=K
      END
