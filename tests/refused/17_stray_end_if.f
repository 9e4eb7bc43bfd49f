C END IF without a block IF
      END IF
      END
