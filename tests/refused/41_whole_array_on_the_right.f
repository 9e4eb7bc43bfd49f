C a whole array on the right
      INTEGER J(2)
      I=J
      END
