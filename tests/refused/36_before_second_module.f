C 36 of the first module, before 30 of the second
      COMMON I
      INTEGER J(3)
      EQUIVALENCE (I,J(2))
      END
      SUBROUTINE S
      X=1
      END
