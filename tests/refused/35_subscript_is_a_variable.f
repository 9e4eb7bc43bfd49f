C EQUIVALENCE with a variable as a subscript
      INTEGER J(3)
      EQUIVALENCE (I,J(K))
      END
