C RETURN in a main program that refers to a function
      I=NF(1)
      RETURN
      END
      FUNCTION NF(K)
      NF=K
      END
