C a unit of COMMON that an array has, too, is not tracked, and its names
C are known of nothing
      COMMON /B/ N,M
      INTEGER A(2)
      EQUIVALENCE (A(2),M)
      N=1
      A(1)=5
      PRINT *,N
      END
