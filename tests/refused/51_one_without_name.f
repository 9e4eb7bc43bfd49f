C a main program without a name, and one with
      END
      PROGRAM Q
      END
