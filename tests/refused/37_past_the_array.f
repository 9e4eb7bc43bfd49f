C DATA of an element past its array
      INTEGER J(2)
      DATA J(3)/1/
      END
