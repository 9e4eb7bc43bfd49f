C sums, in the forms that are recognised: K first in a chain of + and -, or last behind one +
      INTEGER A(10),B(10)
      DATA A,B/10*3,10*4/
      K=0
      L=0
      M=0
      DO I=1,10
      K=K+A(I)
      END DO
      DO I=1,10
      L=L+A(I)-2*B(I)+(I-1)
      END DO
      DO I=1,10
      M=A(I)*B(I)+M
      IF (A(I).GT.B(I)) M=M-1
      END DO
      PRINT *,K,L,M
      END
