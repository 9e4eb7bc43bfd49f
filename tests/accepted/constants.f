C PARAMETER: constants in expressions, bounds and other constants
      PARAMETER (N=10,M=N+1,K2=-M*(N-M))
      LOGICAL T
      PARAMETER (T=.TRUE.)
      INTEGER A(N,M)
      A(N,M)=K2
      I=N*J
      IF (T) I=M
      PRINT *,I
      END
