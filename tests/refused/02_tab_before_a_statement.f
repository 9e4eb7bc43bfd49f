C a tab for the label field
      PROGRAM P
	I=1
      END
