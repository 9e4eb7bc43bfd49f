C comments before each part of a block IF, and what labelled parts
C become: ELSE loses its label, END IF and END a CONTINUE
      LOGICAL L
C1
      IF (L) THEN
C2
      CONTINUE
C3
      ELSE IF (I.EQ.1) THEN
C4
      STOP
C5
5     ELSE
C6
      GO TO 10
C7
20    END IF
10    CONTINUE
C8
      DO K=1,2
C9
      I=K
C10
30    END DO
C11
      IF (L) GO TO 10
C12
40    END
C13
