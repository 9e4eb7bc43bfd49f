C the name of a reference is also the name of a COMMON block
      COMMON /NF/ J
      I=NF(1)
      END
      FUNCTION NF(K)
      NF=K
      END
