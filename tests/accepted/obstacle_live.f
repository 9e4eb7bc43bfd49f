C SERIAL Live: what the last iteration wrote to K is read later
      INTEGER A(9)
      DO I=1,9
      K=I*I
      A(I)=K
      END DO
      PRINT *,K
      END
