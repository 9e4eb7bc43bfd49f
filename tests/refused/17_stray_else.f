C ELSE without a block IF
      I=1
      ELSE
      END
