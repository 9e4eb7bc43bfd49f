C SERIAL Index: the DO variable is read after the loop
      INTEGER A(9)
      READ *,N
      DO I=1,N
      A(I)=0
      END DO
      PRINT *,I
      END
