C SERIAL Name: K is in COMMON, so an iteration has no copy of its own
      COMMON /W/ K
      INTEGER A(9)
      DO I=1,9
      K=I*I
      A(I)=K
      END DO
      END
