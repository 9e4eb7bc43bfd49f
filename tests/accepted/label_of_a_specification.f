C the label of a specification is dropped, and an executable statement
C may have it
10    INTEGER J
10    J=1
      END
