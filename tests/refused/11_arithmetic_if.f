C the arithmetic IF is outside the profile
      IF (I) 1,2,3
      END
