C the name of a reference is also the bound of an array
      CALL S(J)
      END
      SUBROUTINE S(K)
      INTEGER K(NF)
      I=NF(1)
      END
      FUNCTION NF(K)
      NF=K
      END
