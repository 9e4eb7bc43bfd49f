C right sides that are no sums of K and what lacks K
      INTEGER A(10)
      DATA A/10*3/
      K=0
C K behind a minus
      DO I=1,10
      K=A(I)-K
      END DO
C K twice
      DO I=1,10
      K=K+K
      END DO
      DO I=1,10
      K=K-K
      END DO
      DO I=1,10
      K=K+(K)
      END DO
C another operand first, and K not last
      DO I=1,10
      K=2+K-1
      END DO
      DO I=1,10
      K=A(I)+K+1
      END DO
C K in parentheses, with a sign, in a product
      DO I=1,10
      K=(K)+1
      END DO
      DO I=1,10
      K=-K+1
      END DO
      DO I=1,10
      K=2*K+1
      END DO
C what is added takes the value of K
      DO I=1,10
      K=K+A(MOD(K,10)+1)
      END DO
      PRINT *,K
      END
