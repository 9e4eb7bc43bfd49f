C WRITE without parentheses
      WRITE *,I
      END
