C SERIAL Carried: a sum
      READ *,N
      K=0
      DO I=1,9
      K=K+MOD(I*I,N)
      END DO
      PRINT *,K
      END
