C bounds in COMMON and in DIMENSION
      COMMON I(2)
      DIMENSION I(2)
      END
