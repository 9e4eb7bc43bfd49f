C a DO that ends at the END
      DO 10 I=1,2
10    END
