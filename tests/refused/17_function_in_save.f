C the name of a reference is also in SAVE
      SAVE NF
      I=NF(1)
      END
      FUNCTION NF(K)
      NF=K
      END
