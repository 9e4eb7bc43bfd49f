C a FUNCTION that is not first
      I=1
      FUNCTION NF(K)
      NF=1
      END
