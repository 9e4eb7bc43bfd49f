C a loop is reduced where each obstacle is a reduction variable or has copies; B(I-1) is one that is not, so the second loop stays serial for its first obstacle
      INTEGER A(10),B(0:10)
      DATA A,B/10*3,11*0/
      K=0
      M=1
      DO I=1,10
      J=A(I)+1
      K=K+J
      M=MAX(M,A(I))
      B(I)=I
      END DO
      DO I=1,10
      J=A(I)+1
      K=K+J
      B(I)=B(I-1)+J
      END DO
      PRINT *,K,M,B(10)
      END
