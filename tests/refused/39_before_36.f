C 36 comes after the other faults of its module, also those of later
C lines
      COMMON I,K
      INTEGER J(3)
      EQUIVALENCE (K,J(3))
      I=.TRUE.
      END
