C an element with one subscript of two
      INTEGER J(2,2)
      J(1)=1
      END
