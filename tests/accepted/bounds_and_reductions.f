C bounds: with REDUCTION clauses; the lines on references come before the mark of a DO
      INTEGER A(100),K(100)
      DATA A/100*2/,K/100*3/
      N=0
      M=0
      DO I=1,100
      N=N+A(I)
      END DO
      DO I=K(1),K(2),1
      M=MAX(M,A(K(I)))
      END DO
      DO I=2,100
      A(I)=A(I-1)
      END DO
      PRINT *,N,M,A(100)
      END
