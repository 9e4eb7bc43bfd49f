C the first such CALL, in an ELSE IF
      IF (I.EQ.1) THEN
      I=2
      ELSE IF (I.EQ.2) THEN
      CALL T
      ELSE
      CALL U
      END IF
      END
      SUBROUTINE U
      END
