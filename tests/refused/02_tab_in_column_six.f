C a tab in column 6
     	I=1
      END
