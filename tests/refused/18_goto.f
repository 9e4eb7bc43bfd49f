C a DO that ends at a GO TO
      DO 10 I=1,2
10    GO TO 10
      END
