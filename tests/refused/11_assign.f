C ASSIGN is outside the profile
      ASSIGN 1 TO I
      END
