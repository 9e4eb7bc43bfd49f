C a variable as the bound of an array that is no dummy argument
      INTEGER A(N)
      END
