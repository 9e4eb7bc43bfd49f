C 65 block IFs in one another; the line is that of the 65th
      IF (I.EQ.1) THEN
      IF (I.EQ.1) THEN
      IF (I.EQ.1) THEN
      IF (I.EQ.1) THEN
      IF (I.EQ.1) THEN
      IF (I.EQ.1) THEN
      IF (I.EQ.1) THEN
      IF (I.EQ.1) THEN
      IF (I.EQ.1) THEN
      IF (I.EQ.1) THEN
      IF (I.EQ.1) THEN
      IF (I.EQ.1) THEN
      IF (I.EQ.1) THEN
      IF (I.EQ.1) THEN
      IF (I.EQ.1) THEN
      IF (I.EQ.1) THEN
      IF (I.EQ.1) THEN
      IF (I.EQ.1) THEN
      IF (I.EQ.1) THEN
      IF (I.EQ.1) THEN
      IF (I.EQ.1) THEN
      IF (I.EQ.1) THEN
      IF (I.EQ.1) THEN
      IF (I.EQ.1) THEN
      IF (I.EQ.1) THEN
      IF (I.EQ.1) THEN
      IF (I.EQ.1) THEN
      IF (I.EQ.1) THEN
      IF (I.EQ.1) THEN
      IF (I.EQ.1) THEN
      IF (I.EQ.1) THEN
      IF (I.EQ.1) THEN
      IF (I.EQ.1) THEN
      IF (I.EQ.1) THEN
      IF (I.EQ.1) THEN
      IF (I.EQ.1) THEN
      IF (I.EQ.1) THEN
      IF (I.EQ.1) THEN
      IF (I.EQ.1) THEN
      IF (I.EQ.1) THEN
      IF (I.EQ.1) THEN
      IF (I.EQ.1) THEN
      IF (I.EQ.1) THEN
      IF (I.EQ.1) THEN
      IF (I.EQ.1) THEN
      IF (I.EQ.1) THEN
      IF (I.EQ.1) THEN
      IF (I.EQ.1) THEN
      IF (I.EQ.1) THEN
      IF (I.EQ.1) THEN
      IF (I.EQ.1) THEN
      IF (I.EQ.1) THEN
      IF (I.EQ.1) THEN
      IF (I.EQ.1) THEN
      IF (I.EQ.1) THEN
      IF (I.EQ.1) THEN
      IF (I.EQ.1) THEN
      IF (I.EQ.1) THEN
      IF (I.EQ.1) THEN
      IF (I.EQ.1) THEN
      IF (I.EQ.1) THEN
      IF (I.EQ.1) THEN
      IF (I.EQ.1) THEN
      IF (I.EQ.1) THEN
      IF (I.EQ.1) THEN
      END IF
      END IF
      END IF
      END IF
      END IF
      END IF
      END IF
      END IF
      END IF
      END IF
      END IF
      END IF
      END IF
      END IF
      END IF
      END IF
      END IF
      END IF
      END IF
      END IF
      END IF
      END IF
      END IF
      END IF
      END IF
      END IF
      END IF
      END IF
      END IF
      END IF
      END IF
      END IF
      END IF
      END IF
      END IF
      END IF
      END IF
      END IF
      END IF
      END IF
      END IF
      END IF
      END IF
      END IF
      END IF
      END IF
      END IF
      END IF
      END IF
      END IF
      END IF
      END IF
      END IF
      END IF
      END IF
      END IF
      END IF
      END IF
      END IF
      END IF
      END IF
      END IF
      END IF
      END IF
      END IF
      END
