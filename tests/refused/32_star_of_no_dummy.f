C the last bound is * of an array that is no dummy argument
      INTEGER A(*)
      END
