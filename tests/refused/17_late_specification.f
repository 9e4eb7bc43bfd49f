C a specification after an executable statement
      I=1
      INTEGER J
      END
