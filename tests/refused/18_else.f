C a DO that ends at an ELSE
      DO 10 I=1,2
      IF (I.EQ.1) THEN
10    ELSE
      END IF
      END
