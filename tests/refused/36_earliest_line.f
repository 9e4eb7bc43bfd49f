C the first EQUIVALENCE that does so
      COMMON I
      INTEGER J(3)
      EQUIVALENCE (I,J(2))
      EQUIVALENCE (I,J(2))
      END
