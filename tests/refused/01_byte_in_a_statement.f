C a byte that is not ASCII, in a statement
      I=1
      J=
      END
