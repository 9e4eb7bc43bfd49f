C a number with a point behind it
      I=1.
      END
