C     All elements but one are written, and then that one.
      INTEGER A(9)
      DO 10 I=1,9
      IF (I.NE.4) A(I)=I
   10 CONTINUE
      A(4)=0
      DO 20 I=1,9
      A(I)=A(I)+1
   20 CONTINUE
      PRINT *,A(4)
      END
