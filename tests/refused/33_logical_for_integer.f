C PARAMETER of an INTEGER with a LOGICAL value
      PARAMETER (N=.TRUE.)
      END
