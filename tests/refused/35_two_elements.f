C EQUIVALENCE of two elements of one array
      INTEGER J(3)
      EQUIVALENCE (J(1),J(2))
      END
