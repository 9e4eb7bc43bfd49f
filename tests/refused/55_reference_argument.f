C an argument of another type in a reference
      I=NF(.TRUE.)
      END
      FUNCTION NF(K)
      NF=K
      END
