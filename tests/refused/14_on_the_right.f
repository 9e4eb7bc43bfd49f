C a name of 32 characters on the right
      I=IBCDEFGHIJKLMNOPQRSTUVWXYZ123456
      END
