C a sum whose value is taken in the loop
      INTEGER A(10)
      DATA A/10*3/
      K=0
      DO I=1,10
      K=K+A(I)
      L=K
      END DO
      PRINT *,K
      END
