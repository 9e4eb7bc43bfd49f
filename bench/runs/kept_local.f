C a SAVE local over two calls
      PROGRAM P
      CALL S
      CALL S
      END
      SUBROUTINE S
      SAVE K
      DATA K/5/
      K=K+1
      PRINT *,K
      END
