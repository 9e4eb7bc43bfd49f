C LOGICAL without names
      LOGICAL
      END
