C     Each iteration writes in the first half and reads in both.
      INTEGER X(100)
      DO 10 I=1,100
      X(I)=I
   10 CONTINUE
      DO 20 I=1,50
      X(I)=X(I+50)+X(I)
   20 CONTINUE
      PRINT *,X(1),X(50)
      END
