C     Five systems are read. The last two, of B(7) and B(I), become their hull.
      INTEGER B(20)
      DO 10 I=1,20
      B(I)=I
   10 CONTINUE
      DO 20 I=11,20
      B(I)=B(1)+B(3)+B(5)+B(7)+B(I)
   20 CONTINUE
C     Here they are those of B(5) and B(7), which no iteration writes.
      DO 30 I=11,20
      B(I)=B(I)+B(1)+B(3)+B(5)+B(7)
   30 CONTINUE
      PRINT *,B(20)
      END
