C REWIND is outside the profile
      REWIND 1
      END
