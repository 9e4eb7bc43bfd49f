C READ into a constant
      PARAMETER (N=1)
      READ *,N
      END
