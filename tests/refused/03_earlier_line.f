C the label 0 comes first, since its line does; a tab is in a later line
      I=1
  0   J=1
      K=	1
      END
