C bounds: the items of a READ are set one after another
      INTEGER A(10),K(10)
      LOGICAL P(10)
      COMMON /C/ M
      EQUIVALENCE (L,LL)
      N=1
      READ *,A(N),N
      N=2
      READ *,N,A(N)
      N=3
      READ *,A(N),A(N+1),N,A(3)
      I=1
      J=2
      READ *,I,A(J),J,A(I),A(J)
      M=4
      READ *,M,A(M),P(M+1)
      M=4
      READ *,A(M),P(M+1),M
      L=5
      READ *,A(L),A(LL)
      READ *,K(1),A(K(1))
      READ *,N
      IF (N.GE.1.AND.N.LE.9) READ *,A(N),A(N+1),K(N+2),N,A(N)
      PRINT *,N,A(1)
      END
