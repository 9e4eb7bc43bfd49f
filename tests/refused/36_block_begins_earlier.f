C EQUIVALENCE that begins a COMMON block before its first unit
      COMMON /B/ I
      INTEGER J(5)
      EQUIVALENCE (I,J(2))
      END
