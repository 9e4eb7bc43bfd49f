C a CALL on a cycle, after one that is not
      CALL S
      END
      SUBROUTINE S
      CALL V
      CALL T
      END
      SUBROUTINE T
      CALL T
      END
      SUBROUTINE V
      END
