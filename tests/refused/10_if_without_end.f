C an IF whose parenthesis is not closed
      IF (I.EQ.1 I=1
      END
