C a block IF in a DO that ends before it
      DO I=1,2
      IF (I.EQ.1) THEN
      END DO
      END
