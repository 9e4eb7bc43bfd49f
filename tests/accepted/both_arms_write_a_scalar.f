C     Both arms of the IF write K, so that each iteration writes it.
      INTEGER A(9)
      READ *,M
      DO 10 I=1,9
      IF (I.LE.M) THEN
      K=1
      ELSE
      K=2
      END IF
      A(I)=K
   10 CONTINUE
      PRINT *,A(1),A(9)
      END
