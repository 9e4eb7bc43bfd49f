C a whole array in PRINT
      INTEGER J(2)
      PRINT *,J
      END
