C A table of readings by classes: which subscripts may leave their array? (--bounds)
      PROGRAM LOOKUP
      INTEGER CLASS(100),COUNT(10),WIDTH
      COMMON /LIMITS/ WIDTH
      DATA COUNT/10*0/
      READ *,N,WIDTH
      IF (N.GT.100) N=100
      DO 10 I=1,N
   10 READ *,CLASS(I)
C     a class that was read is any number: the first loop has to be looked at, the second one tests it
      DO 20 I=1,N
   20 COUNT(CLASS(I))=COUNT(CLASS(I))+1
      DO 30 I=1,N
      K=CLASS(I)
      IF (K.LT.1) K=1
      IF (K.GT.10) K=10
   30 COUNT(K)=COUNT(K)+1
      CALL SPREAD(COUNT,10)
      PRINT *,COUNT(1),COUNT(10),COUNT(WIDTH)
      END
C     differences of neighbours: the size of A is handed over, and kept
      SUBROUTINE SPREAD(A,M)
      INTEGER A(M)
      DO 40 I=M,2,-1
   40 A(I)=A(I)-A(I-1)
      A(M+1)=0
      END
