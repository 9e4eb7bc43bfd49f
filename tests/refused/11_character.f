C CHARACTER is outside the profile
      CHARACTER*4 C
      END
