C recursion through three modules, by its first CALL in the text
      CALL S
      END
      SUBROUTINE T
      CALL U
      END
      SUBROUTINE S
      CALL T
      END
      SUBROUTINE U
      CALL S
      END
