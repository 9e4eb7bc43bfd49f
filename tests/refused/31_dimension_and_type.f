C bounds in DIMENSION and in a type statement
      DIMENSION I(3)
      INTEGER I(3)
      END
