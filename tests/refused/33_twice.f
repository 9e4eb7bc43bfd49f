C PARAMETER of one name twice
      PARAMETER (N=1,N=2)
      END
