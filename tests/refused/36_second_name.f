C the same, by the second name of the block
      COMMON I,K
      INTEGER J(3)
      EQUIVALENCE (K,J(3))
      END
