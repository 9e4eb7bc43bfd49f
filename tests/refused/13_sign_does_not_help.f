C a sign is no part of a number
      I=-2147483648
      END
