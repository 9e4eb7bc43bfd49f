C BLOCK DATA is outside the profile
      BLOCK DATA
      END
