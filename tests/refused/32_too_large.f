C an array of more than 2147483647 elements
      INTEGER A(2147483647,2)
      END
