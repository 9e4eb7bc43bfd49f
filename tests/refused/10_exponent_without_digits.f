C a number with an E and no digits behind it
      I=1E
      END
