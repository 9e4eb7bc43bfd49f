C two elements that clash, before a block that would begin earlier
      COMMON I
      INTEGER J(3)
      EQUIVALENCE (I,J(2)),(I,J(1))
      END
