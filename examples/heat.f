C a stencil: STEP is called in a loop, its size is in COMMON
      PROGRAM HEAT
      INTEGER U(100),V(100)
      COMMON /GRID/ N
      N=100
      DO 10 I=1,N
      U(I)=I*I
      V(I)=0
   10 CONTINUE
      DO 30 K=1,50
      CALL STEP(U,V)
      DO 20 I=2,N-1
      U(I)=V(I)
   20 CONTINUE
   30 CONTINUE
      PRINT *,U(50)
      END
      SUBROUTINE STEP(A,B)
      INTEGER A(*),B(*)
      COMMON /GRID/ N
      DO 10 I=2,N-1
      B(I)=(A(I-1)+2*A(I)+A(I+1))/4
   10 CONTINUE
      END
