C one COMMON block with two names in one module, and one array in the
C other
      PROGRAM P
      COMMON /B/ N,M
      N=1
      CALL S
      PRINT *,N
      END
      SUBROUTINE S
      COMMON /B/ K(2)
      K(1)=5
      END
