C the name of a function is REAL by its letter
      I=1
      END
      FUNCTION F(I)
      END
