C the text that is written of a stencil, once more
      PROGRAM HEAT
      INTEGER U(100),V(100)
      COMMON /GRID/ N
      N = 100
C$OMP PARALLEL DO
      DO I = 1,N
      U(I) = I*I
      V(I) = 0
10    CONTINUE
      END DO
C> SERIAL U W-R R-W W-W Carried
      DO K = 1,50
      CALL STEP(U,V)
C$OMP PARALLEL DO
      DO I = 2,N-1
      U(I) = V(I)
20    CONTINUE
      END DO
30    CONTINUE
      END DO
      PRINT *,U(50)
      END
      SUBROUTINE STEP(A,B)
      INTEGER A(*),B(*)
      COMMON /GRID/ N
C$OMP PARALLEL DO
      DO I = 2,N-1
      B(I) = (A(I-1)+2*A(I)+A(I+1))/4
10    CONTINUE
      END DO
      END
