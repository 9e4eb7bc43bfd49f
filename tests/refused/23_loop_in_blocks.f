C a DO in 64 block IFs
      IF (I.EQ.1) THEN
      IF (I.EQ.1) THEN
      IF (I.EQ.1) THEN
      IF (I.EQ.1) THEN
      IF (I.EQ.1) THEN
      IF (I.EQ.1) THEN
      IF (I.EQ.1) THEN
      IF (I.EQ.1) THEN
      IF (I.EQ.1) THEN
      IF (I.EQ.1) THEN
      IF (I.EQ.1) THEN
      IF (I.EQ.1) THEN
      IF (I.EQ.1) THEN
      IF (I.EQ.1) THEN
      IF (I.EQ.1) THEN
      IF (I.EQ.1) THEN
      IF (I.EQ.1) THEN
      IF (I.EQ.1) THEN
      IF (I.EQ.1) THEN
      IF (I.EQ.1) THEN
      IF (I.EQ.1) THEN
      IF (I.EQ.1) THEN
      IF (I.EQ.1) THEN
      IF (I.EQ.1) THEN
      IF (I.EQ.1) THEN
      IF (I.EQ.1) THEN
      IF (I.EQ.1) THEN
      IF (I.EQ.1) THEN
      IF (I.EQ.1) THEN
      IF (I.EQ.1) THEN
      IF (I.EQ.1) THEN
      IF (I.EQ.1) THEN
      IF (I.EQ.1) THEN
      IF (I.EQ.1) THEN
      IF (I.EQ.1) THEN
      IF (I.EQ.1) THEN
      IF (I.EQ.1) THEN
      IF (I.EQ.1) THEN
      IF (I.EQ.1) THEN
      IF (I.EQ.1) THEN
      IF (I.EQ.1) THEN
      IF (I.EQ.1) THEN
      IF (I.EQ.1) THEN
      IF (I.EQ.1) THEN
      IF (I.EQ.1) THEN
      IF (I.EQ.1) THEN
      IF (I.EQ.1) THEN
      IF (I.EQ.1) THEN
      IF (I.EQ.1) THEN
      IF (I.EQ.1) THEN
      IF (I.EQ.1) THEN
      IF (I.EQ.1) THEN
      IF (I.EQ.1) THEN
      IF (I.EQ.1) THEN
      IF (I.EQ.1) THEN
      IF (I.EQ.1) THEN
      IF (I.EQ.1) THEN
      IF (I.EQ.1) THEN
      IF (I.EQ.1) THEN
      IF (I.EQ.1) THEN
      IF (I.EQ.1) THEN
      IF (I.EQ.1) THEN
      IF (I.EQ.1) THEN
      IF (I.EQ.1) THEN
      DO J=1,2
      END DO
      END IF
      END IF
      END IF
      END IF
      END IF
      END IF
      END IF
      END IF
      END IF
      END IF
      END IF
      END IF
      END IF
      END IF
      END IF
      END IF
      END IF
      END IF
      END IF
      END IF
      END IF
      END IF
      END IF
      END IF
      END IF
      END IF
      END IF
      END IF
      END IF
      END IF
      END IF
      END IF
      END IF
      END IF
      END IF
      END IF
      END IF
      END IF
      END IF
      END IF
      END IF
      END IF
      END IF
      END IF
      END IF
      END IF
      END IF
      END IF
      END IF
      END IF
      END IF
      END IF
      END IF
      END IF
      END IF
      END IF
      END IF
      END IF
      END IF
      END IF
      END IF
      END IF
      END IF
      END IF
      END
