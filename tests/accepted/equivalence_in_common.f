C EQUIVALENCE that makes a COMMON block longer at its end
      COMMON /B/ I
      INTEGER J(5)
      EQUIVALENCE (I,J(1))
      I=1
      PRINT *,J(1)
      END
