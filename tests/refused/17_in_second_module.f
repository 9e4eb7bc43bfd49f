C the fault of the second module
      END
      END IF
      END
