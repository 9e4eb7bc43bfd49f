C a tab comes first, since its line does; the label 0 is in a later line
      I=1
      J=	1
  0   K=1
      END
