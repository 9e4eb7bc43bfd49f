C the name of a function is an array in it, and assigned as a whole
      I=NF(1)
      END
      FUNCTION NF(K)
      INTEGER NF(3)
      NF=K
      END
