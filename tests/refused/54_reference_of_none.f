C a reference without an argument of a function with one
      I=NF()
      END
      FUNCTION NF(K)
      NF=K
      END
