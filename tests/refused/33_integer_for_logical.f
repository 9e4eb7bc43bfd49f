C PARAMETER of a LOGICAL with an INTEGER value
      LOGICAL L
      PARAMETER (L=3)
      END
