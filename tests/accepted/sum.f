C a sum over an array: its value is unknown after the loop
      INTEGER A(10)
      DATA A/10*3/
      K=0
      DO I=1,10
      K=K+A(I)
      END DO
      PRINT *,K
      END
