C a GO TO to an END IF from before its block: the label becomes a
C CONTINUE after it
      LOGICAL L
      GO TO 30
      IF (L) THEN
      I=1
30    END IF
      END
