C DATA with four values for three elements
      INTEGER J(3)
      DATA J/2*1,2*2/
      END
