C a number with a point before it, and an exponent
      I=.5D-3
      END
