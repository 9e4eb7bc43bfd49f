C INTRINSIC is outside the profile
      INTRINSIC ABS
      END
