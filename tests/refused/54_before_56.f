C a CALL that does not fit comes before recursion
      CALL S
      END
      SUBROUTINE S
      CALL S
      END
      SUBROUTINE T
      CALL S(1)
      END
