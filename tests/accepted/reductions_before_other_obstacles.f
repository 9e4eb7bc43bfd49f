C sums in loops that leave, print, or have a step that is no constant: none is reduced
      INTEGER A(10)
      DATA A/10*3/
      K=0
      READ *,N
      DO I=1,10
      K=K+A(I)
      IF (A(I).GT.4) GO TO 20
      END DO
20    CONTINUE
      DO I=1,10
      K=K+A(I)
      PRINT *,I
      END DO
      DO I=1,10,N
      K=K+A(I)
      END DO
      DO I=1,10
      K=K+A(I)
      END DO
      PRINT *,K,I
      END
