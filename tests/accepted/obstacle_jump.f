C SERIAL Jump: GO TO leaves the loop before its last iteration
      INTEGER A(9)
      READ *,N
      DO I=1,9
      IF (I.EQ.N) GO TO 10
      A(I)=I
      END DO
10    CONTINUE
      END
