C a reference with two arguments of a function with one
      I=NF(1,2)
      END
      FUNCTION NF(K)
      NF=K
      END
