C two subroutines that call each other, before the main program
      SUBROUTINE S
      CALL T
      END
      SUBROUTINE T
      CALL S
      END
      END
