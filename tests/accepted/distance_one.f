C each iteration reads what the one before it wrote
      INTEGER A(0:9)
      A(0)=0
      DO I=1,9
      A(I)=A(I-1)+1
      END DO
      PRINT *,A(9)
      END
