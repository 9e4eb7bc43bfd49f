C 64 block IFs in one another
      IF (I.EQ.1) THEN
      IF (I.EQ.1) THEN
      IF (I.EQ.1) THEN
      IF (I.EQ.1) THEN
      IF (I.EQ.1) THEN
      IF (I.EQ.1) THEN
      IF (I.EQ.1) THEN
      IF (I.EQ.1) THEN
      IF (I.EQ.1) THEN
      IF (I.EQ.1) THEN
      IF (I.EQ.1) THEN
      IF (I.EQ.1) THEN
      IF (I.EQ.1) THEN
      IF (I.EQ.1) THEN
      IF (I.EQ.1) THEN
      IF (I.EQ.1) THEN
      IF (I.EQ.1) THEN
      IF (I.EQ.1) THEN
      IF (I.EQ.1) THEN
      IF (I.EQ.1) THEN
      IF (I.EQ.1) THEN
      IF (I.EQ.1) THEN
      IF (I.EQ.1) THEN
      IF (I.EQ.1) THEN
      IF (I.EQ.1) THEN
      IF (I.EQ.1) THEN
      IF (I.EQ.1) THEN
      IF (I.EQ.1) THEN
      IF (I.EQ.1) THEN
      IF (I.EQ.1) THEN
      IF (I.EQ.1) THEN
      IF (I.EQ.1) THEN
      IF (I.EQ.1) THEN
      IF (I.EQ.1) THEN
      IF (I.EQ.1) THEN
      IF (I.EQ.1) THEN
      IF (I.EQ.1) THEN
      IF (I.EQ.1) THEN
      IF (I.EQ.1) THEN
      IF (I.EQ.1) THEN
      IF (I.EQ.1) THEN
      IF (I.EQ.1) THEN
      IF (I.EQ.1) THEN
      IF (I.EQ.1) THEN
      IF (I.EQ.1) THEN
      IF (I.EQ.1) THEN
      IF (I.EQ.1) THEN
      IF (I.EQ.1) THEN
      IF (I.EQ.1) THEN
      IF (I.EQ.1) THEN
      IF (I.EQ.1) THEN
      IF (I.EQ.1) THEN
      IF (I.EQ.1) THEN
      IF (I.EQ.1) THEN
      IF (I.EQ.1) THEN
      IF (I.EQ.1) THEN
      IF (I.EQ.1) THEN
      IF (I.EQ.1) THEN
      IF (I.EQ.1) THEN
      IF (I.EQ.1) THEN
      IF (I.EQ.1) THEN
      IF (I.EQ.1) THEN
      IF (I.EQ.1) THEN
      IF (I.EQ.1) THEN
      END IF
      END IF
      END IF
      END IF
      END IF
      END IF
      END IF
      END IF
      END IF
      END IF
      END IF
      END IF
      END IF
      END IF
      END IF
      END IF
      END IF
      END IF
      END IF
      END IF
      END IF
      END IF
      END IF
      END IF
      END IF
      END IF
      END IF
      END IF
      END IF
      END IF
      END IF
      END IF
      END IF
      END IF
      END IF
      END IF
      END IF
      END IF
      END IF
      END IF
      END IF
      END IF
      END IF
      END IF
      END IF
      END IF
      END IF
      END IF
      END IF
      END IF
      END IF
      END IF
      END IF
      END IF
      END IF
      END IF
      END IF
      END IF
      END IF
      END IF
      END IF
      END IF
      END IF
      END IF
      END
