C READ into the name of an intrinsic function
      READ *,MOD
      END
