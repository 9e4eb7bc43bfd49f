C PARAMETER with the value of a variable
      PARAMETER (N=I)
      END
