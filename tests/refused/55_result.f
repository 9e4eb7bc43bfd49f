C a result of another type than the reference has
      LOGICAL NF,L
      L=NF(1)
      END
      FUNCTION NF(K)
      NF=K
      END
