C MAX is a name that is declared: compilers refuse REDUCTION(MAX:K) there, so K is no reduction variable
      PROGRAM P
      INTEGER MAX
      INTEGER A(10)
      DATA A/10*3/
      K=0
      L=9
      DO I=1,10
      K=MAX0(K,A(I))
      END DO
      DO I=1,10
      L=MIN(A(I),L)
      END DO
      PRINT *,K,L
      END
