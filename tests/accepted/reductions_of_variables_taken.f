C the variable is read or written otherwise in the loop
      INTEGER A(10),L(10)
      DATA A/10*3/
      N=0
      K=0
      DO I=1,10
      K=K+A(I)
      M=K
      END DO
      DO I=1,10
      K=K+A(I)
      L(I)=K
      END DO
      DO I=1,10
      K=K+A(I)
      L(I)=A(MOD(K,10)+1)
      END DO
      DO I=1,10
      IF (K.LT.9) K=K+A(I)
      END DO
      DO I=1,10
      IF (A(I).GT.K) THEN
      K=K+1
      END IF
      END DO
      DO I=1,10
      K=K+A(I)
      CALL S(K)
      END DO
      DO I=1,10
      K=K+1
      K=I
      END DO
      READ *,K
C in the bounds of a DO: the loop's own, and one in it
      DO I=1,K
      K=K+1
      END DO
      DO I=1,10
      K=K+1
      DO J=1,K
      L(I)=J
      END DO
      END DO
C as the variable of a DO in it
      DO I=1,10
      DO K=1,10
      L(I)=K
      END DO
      K=K+1
      END DO
C one sum in the other: neither is a reduction variable
      DO I=1,10
      K=K+A(I)
      N=N+K
      END DO
      PRINT *,K,N,L(1)
      END
      SUBROUTINE S(K)
      K=K+1
      END
