C the name of a function is an array in it
      I=NF(1)
      END
      FUNCTION NF(K)
      INTEGER NF(3)
      NF(1)=K
      END
