C SERIAL Step: the step is no constant
      INTEGER A(90)
      READ *,K
      DO I=1,90,K
      A(I)=0
      END DO
      END
