C an INTEGER assigned to a LOGICAL
      LOGICAL L
      L=1
      END
