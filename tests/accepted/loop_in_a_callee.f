C a DO in a subroutine, over a dummy array of a size that the CALL gives
      PROGRAM P
      INTEGER B(100)
      DATA B/100*0/
      CALL INC(B,100)
      END
      SUBROUTINE INC(A,N)
      INTEGER A(N)
      DO 10 I=1,N
      A(I)=A(I)+1
   10 CONTINUE
      END
