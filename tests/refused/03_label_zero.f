C a label is not 0
  0   I=1
      END
