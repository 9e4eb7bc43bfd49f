C a number with an exponent
      I=1E5
      END
