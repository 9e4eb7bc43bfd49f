C SERIAL Carried: an iteration reads what the one before it wrote
      INTEGER A(9)
      A(1)=1
      DO I=2,9
      A(I)=A(I-1)+2
      END DO
      END
