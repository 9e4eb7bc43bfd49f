C DATA of a name that is in COMMON by EQUIVALENCE
      COMMON I
      EQUIVALENCE (I,J)
      DATA J/1/
      END
