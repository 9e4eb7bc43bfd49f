C CLOSE is outside the profile
      CLOSE(1)
      END
