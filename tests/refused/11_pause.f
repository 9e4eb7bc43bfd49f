C PAUSE is outside the profile
      PAUSE
      END
