C PRINT * with an item and no comma
      PRINT *I
      END
