C DIMENSION of a name without bounds
      DIMENSION A
      END
