C a continuation line has no label
      I=1
1    &+2
      END
