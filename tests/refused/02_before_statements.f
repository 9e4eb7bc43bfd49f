C what is wrong with lines comes before what is wrong with statements,
C and that before structure
      ELSE
      I=(1
	I=1
      END
