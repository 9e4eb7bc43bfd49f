C a variable with a subscript, in EQUIVALENCE
      EQUIVALENCE (I,J)
      EQUIVALENCE (J,I(2))
      END
