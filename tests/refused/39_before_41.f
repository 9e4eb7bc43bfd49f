C of two faults of one line the lower code is reported
      I(1)=.TRUE.
      END
