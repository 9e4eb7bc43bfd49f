C no sign stands next to an operator
      I=J*-K
      END
