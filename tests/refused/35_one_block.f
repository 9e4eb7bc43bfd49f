C EQUIVALENCE of two names of one COMMON block
      COMMON I,J
      EQUIVALENCE (I,J)
      END
