      PROGRAM FIRST
      N=100
      K=2*N-1
      K=K+N
      PRINT *,K,N
      END
