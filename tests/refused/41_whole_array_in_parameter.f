C a whole array in PARAMETER
      INTEGER J(2)
      PARAMETER (J=1)
      END
