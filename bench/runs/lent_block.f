C part of a block as a vector, and a local of the callee
      PROGRAM P
      COMMON /B/ M(3)
      M(1)=5
      CALL S(M(2))
      PRINT *,M(2),M(3)
      END
      SUBROUTINE S(V)
      INTEGER V(2)
      K=7
      V(1)=K
      V(2)=V(1)
      END
