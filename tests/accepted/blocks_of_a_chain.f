C a chain of calls before the main program
      SUBROUTINE S
      CALL T
      CALL U
      END
      SUBROUTINE T
      CALL U
      END
      SUBROUTINE U
      END
      END
