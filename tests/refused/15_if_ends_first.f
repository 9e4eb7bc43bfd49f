C a DO in a block IF that ends before it
      IF (I.EQ.1) THEN
      DO I=1,2
      END IF
      END
