C 10 END DO is the CONTINUE that ends DO 10, and an END DO besides,
C which strays
      DO 10 I=1,2
10    END DO
      END
