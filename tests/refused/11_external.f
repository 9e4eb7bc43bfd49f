C EXTERNAL is outside the profile
      EXTERNAL F
      END
