C the name of a reference is also called
      CALL NF(1,J)
      I=NF(1)
      END
      FUNCTION NF(K)
      NF=K
      END
