C a variable with a subscript, in an expression
      J=I(2)+1
      END
