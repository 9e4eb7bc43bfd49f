C a letter in the label field
      I=1
 1a   J=1
      END
