C a comma, and no subscript behind it
      INTEGER A(3,3)
      I=A(1,)
      END
