C a GO TO out of a block IF and its DO
      LOGICAL L
      DO I=1,2
      IF (L) THEN
      GO TO 10
      END IF
      END DO
10    STOP
      END
