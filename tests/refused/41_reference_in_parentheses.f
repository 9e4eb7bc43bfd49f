C a reference in parentheses
      I=(NF(3))
      END
      FUNCTION NF(K)
      NF=K
      END
