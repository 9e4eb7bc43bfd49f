C adjustable bounds are those at entry
      PROGRAM P
      INTEGER A(6)
      N=2
      CALL S(A,N)
      PRINT *,N,A(6)
      END
      SUBROUTINE S(B,N)
      INTEGER B(N,0:N)
      N=7
      B(2,2)=N
      END
