C such a name in an expression, in a later line
      I=1
      J=I+X
      END
