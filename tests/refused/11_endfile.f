C ENDFILE is outside the profile
      ENDFILE 1
      END
