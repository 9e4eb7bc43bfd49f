C PARAMETER with a constant that comes after it
      PARAMETER (N=M,M=1)
      END
