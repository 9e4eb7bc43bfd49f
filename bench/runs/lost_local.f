C a local that is not saved is undefined in the second call: fault 2
      PROGRAM P
      CALL S(1)
      CALL S(2)
      END
      SUBROUTINE S(N)
      IF (N.EQ.1) K=5
      PRINT *,K+N
      END
