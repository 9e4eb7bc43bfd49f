C an intrinsic function has arguments
      I=MAX()
      END
