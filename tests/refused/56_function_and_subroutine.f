C a function that calls a subroutine that refers to it
      I=NF(1)
      END
      FUNCTION NF(K)
      CALL S(K)
      NF=K
      END
      SUBROUTINE S(K)
      I=NF(K)
      END
