C an argument that is no expression of one type
      I=NF(1+.TRUE.)
      END
      FUNCTION NF(K)
      NF=K
      END
