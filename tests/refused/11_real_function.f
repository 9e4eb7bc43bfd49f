C REAL FUNCTION is outside the profile
      REAL FUNCTION F(I)
      END
