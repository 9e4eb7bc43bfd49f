C the name of an intrinsic function that is assigned
      MAX=3
      END
