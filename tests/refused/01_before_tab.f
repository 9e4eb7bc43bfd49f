C of two faults of one line the lower code is reported: a byte that is
C not ASCII, before a tab
   	 &I=
      END
