C REAL is outside the profile
      REAL X
      END
