C a CALL of a function with its number of arguments
      CALL NF(1)
      END
      FUNCTION NF(K)
      NF=K
      END
