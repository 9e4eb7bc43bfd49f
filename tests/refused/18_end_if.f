C a DO that ends at an END IF
      DO 10 I=1,2
      IF (I.EQ.1) THEN
10    END IF
      END
