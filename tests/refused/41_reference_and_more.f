C a reference is the whole right side
      I=NF(3)+1
      END
      FUNCTION NF(K)
      NF=K
      END
