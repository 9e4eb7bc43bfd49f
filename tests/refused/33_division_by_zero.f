C PARAMETER with a division by zero
      PARAMETER (N=1/0)
      END
