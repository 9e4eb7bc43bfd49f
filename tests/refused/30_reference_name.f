C the name of a reference is REAL by its letter
      I=F(1)
      END
      INTEGER FUNCTION F(K)
      F=K
      END
