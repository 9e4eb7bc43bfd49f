C no sign stands after **
      I=J**-K
      END
