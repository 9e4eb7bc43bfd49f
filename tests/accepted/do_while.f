C DO WHILE with END DO and with a label, one in another, with GO TO out of it
C and to its end, and with a label of its own
      INTEGER A(5)
      LOGICAL L
      I=0
      DO WHILE (I.LT.5)
      I=I+1
      A(I)=I
      END DO
      L=.TRUE.
      DO 20 WHILE (L)
      J=0
10    DO WHILE (J.LT.3.AND.L)
      J=J+1
      IF (A(J).EQ.2) GO TO 20
      END DO
      IF (J.GT.2) GO TO 30
      L=J.NE.3
20    I=I-1
30    CONTINUE
      DO 40 WHILE (I.GT.0)
      DO 40 J=1,2
40    I=I-1
      DO 60 J=1,2
      DO 50, WHILE(I.LT.3)
      IF (I.EQ.2) THEN
      I=9
      ELSE
      I=I+1
      END IF
50    CONTINUE
      I=0
60    CONTINUE
      DO WHILE (I.LT.0)
      END DO
      PRINT *,I,J
      END
