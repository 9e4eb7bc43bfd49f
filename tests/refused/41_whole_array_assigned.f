C a whole array on the left
      INTEGER J(2)
      J=1
      END
