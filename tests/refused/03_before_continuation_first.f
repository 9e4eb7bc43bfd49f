C of two faults of one line the lower code is reported: a label field,
C before a continuation
1    &I=1
      END
