C an element without a subscript
      INTEGER A(3)
      I=A()
      END
