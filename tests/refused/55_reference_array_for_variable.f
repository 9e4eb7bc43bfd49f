C a whole array for a variable in a reference
      INTEGER A(3)
      I=NF(A)
      END
      FUNCTION NF(K)
      NF=K
      END
