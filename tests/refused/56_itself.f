C a subroutine that calls itself
      CALL S
      END
      SUBROUTINE S
      CALL S
      END
