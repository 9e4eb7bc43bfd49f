C one label on two statements
10    I=1
10    I=2
      END
