C OPEN is outside the profile
      OPEN(1)
      END
