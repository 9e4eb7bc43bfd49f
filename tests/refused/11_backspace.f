C BACKSPACE is outside the profile
      BACKSPACE 1
      END
