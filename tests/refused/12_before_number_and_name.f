C of the faults of one statement the lowest code is reported
      ABCDEFGHIJKLMNOPQRSTUVWXYZ123456=2147483648+1.
      END
