C ENTRY is outside the profile
      ENTRY E
      END
