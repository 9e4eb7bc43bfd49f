C .NOT. of .NOT.
      LOGICAL L
      L=.NOT..NOT.L
      END
