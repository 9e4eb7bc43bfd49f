C the name of a reference is also a dummy
      CALL S(NF)
      END
      SUBROUTINE S(NF)
      I=NF(1)
      END
      FUNCTION NF(K)
      NF=K
      END
