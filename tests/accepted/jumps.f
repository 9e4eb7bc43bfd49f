C GO TO forward, back, out of blocks, to labels of END DO, END IF and
C END; in a list with jumps only what each of its statements keeps is
C known
      I=1
10    I=I+1
      IF (I.LT.5) GO TO 10
      DO J=1,3
      IF (J.EQ.2) GO TO 20
      IF (J.EQ.I) GO TO 30
20    END DO
30    CONTINUE
      IF (I.EQ.9) THEN
      IF (J.EQ.1) GO TO 40
      GO TO 50
40    END IF
      GO TO 10
50    END
