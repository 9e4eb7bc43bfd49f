C a function in the body: its name is private and is not written; a reference that has K as an actual argument, and one whose value is given to K
      INTEGER A(10)
      DATA A/10*3/
      K=0
      DO I=1,10
      J=NF(A(I))
      K=K+J
      END DO
      DO I=1,10
      K=K+1
      J=NF(K)
      END DO
      DO I=1,10
      K=NF(I)
      K=K+1
      END DO
      PRINT *,J,K
      END
      FUNCTION NF(I)
      NF=2*I
      END
