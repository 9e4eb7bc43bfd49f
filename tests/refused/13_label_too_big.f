C the label of a GO TO is a number
      GO TO 2147483648
      END
