C of three main programs the second is reported
      PROGRAM P
      END
      PROGRAM Q
      END
      PROGRAM R
      END
