C of two faults of one line the lower code is reported: a tab, before a
C label field
1   	&I=1
      END
