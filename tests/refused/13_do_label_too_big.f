C the label of a DO is a number
      DO 2147483648 I=1,5
      END
