C each iteration has its own values of the functions to which its body refers,
C and PRIVATE names other variables alone
      INTEGER A(9),B(9)
      DO I=1,9
      K=NF(I)
      IF (K.GT.4) K=NG(K,B)
      A(I)=K
      END DO
      DO I=1,9
      DO J=1,2
      B(I)=NF(A(I)+J)
      END DO
      END DO
      DO I=2,9
      B(I)=NF(B(I-1))
      END DO
      DO I=3,3
      L=NF(I)
      END DO
      PRINT *,B(9),L
      END
      FUNCTION NF(K)
      NF=2*K
      END
      FUNCTION NG(K,B)
      INTEGER B(9)
      NG=K-1
      END
