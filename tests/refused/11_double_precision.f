C DOUBLE PRECISION is outside the profile
      DOUBLE PRECISION X
      END
