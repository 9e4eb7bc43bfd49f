C a constant that is assigned
      PARAMETER (N=1)
      N=2
      END
