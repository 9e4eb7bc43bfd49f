C a temporary that is used after its loop
      INTEGER A(10),T
      DO I=1,10
      T=2*I
      A(I)=T
      END DO
      PRINT *,T
      END
