C what has no inverse in whole numbers, and a constant of -2147483648
      I=2*I+1
      J=I
      I=I-I
      I=-J
      K=-2147483647-1
      PRINT *,I
      END
