C a CALL in a logical IF in a loop
      DO I=1,2
      IF (I.EQ.1) CALL T
      END DO
      END
