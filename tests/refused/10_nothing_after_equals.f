C an assignment without a value
      I=
      END
