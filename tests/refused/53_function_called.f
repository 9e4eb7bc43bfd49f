C a CALL of a function
      CALL NF(1,J)
      END
      FUNCTION NF(K)
      NF=K
      END
