C a variable with a subscript, on the left
      I(1)=1
      END
