C the name of a reference is also the variable of a DO
      I=NF(1)
      DO NF=1,2
      END DO
      END
      FUNCTION NF(K)
      NF=K
      END
