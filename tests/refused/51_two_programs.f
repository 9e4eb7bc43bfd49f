C two main programs with names
      PROGRAM P
      END
      PROGRAM Q
      END
