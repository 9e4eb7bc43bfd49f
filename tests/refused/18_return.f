C a DO that ends at a RETURN
      SUBROUTINE S
      DO 10 I=1,2
10    RETURN
      END
