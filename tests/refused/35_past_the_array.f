C EQUIVALENCE with an element past its array
      INTEGER J(3)
      EQUIVALENCE (I,J(4))
      END
