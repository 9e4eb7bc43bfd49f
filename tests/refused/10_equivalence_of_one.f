C EQUIVALENCE of one name
      EQUIVALENCE (I)
      END
