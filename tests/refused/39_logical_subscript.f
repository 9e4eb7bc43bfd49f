C a LOGICAL as a subscript
      INTEGER J(2)
      J(.TRUE.)=1
      END
