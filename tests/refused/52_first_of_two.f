C the first module that repeats a name
      SUBROUTINE S
      END
      END
      SUBROUTINE T
      END
      SUBROUTINE T
      END
      SUBROUTINE S
      END
