C of two faults of one line the lower code is reported
10    I=1
10    GO TO 20
      END
