C a number past 2147483647
      I=2147483648
      END
