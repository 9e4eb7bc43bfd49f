C a tab in column 1
	      I=1
      END
