C a FUNCTION has no length
      END
      INTEGER*4 FUNCTION NF(K)
      NF=1
      END
