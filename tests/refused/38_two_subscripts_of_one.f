C an element with two subscripts of one, in PRINT
      INTEGER J(2)
      PRINT *,J(1,2)
      END
