C INQUIRE is outside the profile
      INQUIRE(1)
      END
