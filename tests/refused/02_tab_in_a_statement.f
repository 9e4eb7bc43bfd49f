C a tab after column 6, outside a character constant
      PROGRAM P
      I=	1
      END
