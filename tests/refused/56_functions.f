C two functions that refer to one another
      I=NF(1)
      END
      FUNCTION NF(K)
      NF=NG(K)
      END
      FUNCTION NG(K)
      NG=NF(K)
      END
