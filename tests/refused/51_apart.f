C two main programs with a subroutine between
      PROGRAM P
      END
      SUBROUTINE S
      END
      PROGRAM Q
      END
