C an expression for an array in a reference
      I=NF(1)
      END
      FUNCTION NF(K)
      INTEGER K(3)
      NF=K(1)
      END
