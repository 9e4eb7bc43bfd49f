C block IF, ELSE IF and ELSE: what holds in each arm, and what holds
C after all
      READ *,I,J
      IF (I.GT.2) THEN
      K=1
      ELSE IF (I.EQ.J) THEN
      K=2
      ELSE IF (I+J.LE.3) THEN
      K=3
      ELSE
      K=4
      ENDIF
      PRINT *,K
      IF (I.EQ.1) THEN
      END IF
      IF (I.EQ.1.AND.J.EQ.2) THEN
      J=I
      ELSE
      END IF
      END
