C SERIAL Carried: K is written in both arms of an IF
      INTEGER A(9)
      READ *,N
      DO I=1,9
      IF (MOD(I,N).EQ.0) THEN
      K=1
      ELSE
      K=2
      END IF
      A(I)=K
      END DO
      END
