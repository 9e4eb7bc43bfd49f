C a DO WHILE in the body: K in its test is no accumulation
      INTEGER A(10)
      DATA A/10*3/
      K=0
      L=0
      DO I=1,10
      J=0
      DO WHILE (J.LT.3)
      J=J+1
      K=K+A(I)
      END DO
      END DO
      DO I=1,10
      J=0
      DO WHILE (L.LT.3.AND.J.LT.9)
      J=J+1
      L=L+A(I)
      END DO
      END DO
      PRINT *,K,L
      END
