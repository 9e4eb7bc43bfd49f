C two EQUIVALENCE lists that cannot both hold
      INTEGER J(3),K(3)
      EQUIVALENCE (J(1),K(2)),(J(2),K(2))
      END
