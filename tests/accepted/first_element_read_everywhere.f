C     B(1) is read in each iteration, and none writes it.
      INTEGER B(9)
      DO 10 I=1,9
      B(I)=I
   10 CONTINUE
      DO 20 I=2,9
      B(I)=B(I)+B(1)
   20 CONTINUE
      PRINT *,B(2),B(9)
      END
