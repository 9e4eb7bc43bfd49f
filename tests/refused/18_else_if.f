C a DO that ends at an ELSE IF
      DO 10 I=1,2
      IF (I.EQ.1) THEN
10    ELSE IF (I.EQ.2) THEN
      END IF
      END
