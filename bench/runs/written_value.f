C the callee writes an expression that is an actual: fault 5
      PROGRAM P
      I=1
      CALL S(I)
      PRINT *,I
      CALL S(I+1)
      END
      SUBROUTINE S(N)
      N=N+1
      END
