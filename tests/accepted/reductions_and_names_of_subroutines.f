C the name of a subroutine that is called is no use of the variable of that name
      K=0
      N=0
      DO I=1,9
      K=K+1
      CALL K
      END DO
      DO I=1,9
      N=N+1
      J=NF(I)
      END DO
      PRINT *,K,N
      END
      SUBROUTINE K
      END
      FUNCTION NF(I)
      NF=I
      END
