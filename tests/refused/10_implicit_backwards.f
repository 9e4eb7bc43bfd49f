C the letters of IMPLICIT in the wrong order
      IMPLICIT INTEGER(Z-A)
      END
