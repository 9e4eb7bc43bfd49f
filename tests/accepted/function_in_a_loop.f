C a loop that refers to a function, of which each iteration has its own value
      INTEGER A(9)
      DO I=1,9
      A(I)=NF(I)
      END DO
      PRINT *,A(3)
      END
      FUNCTION NF(K)
      NF=2*K
      END
