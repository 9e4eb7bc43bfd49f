C a reference as an argument
      CALL S(NF(3))
      END
      SUBROUTINE S(K)
      END
      FUNCTION NF(K)
      NF=K
      END
