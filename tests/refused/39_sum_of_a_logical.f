C a sum of a LOGICAL and an INTEGER
      LOGICAL L
      I=L+1
      END
