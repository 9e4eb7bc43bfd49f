C a DO that ends at a block IF
      DO 10 I=1,2
10    IF (I.EQ.1) THEN
      END IF
      END
