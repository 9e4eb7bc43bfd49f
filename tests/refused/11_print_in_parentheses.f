C PRINT with its * in parentheses
      PRINT (*)
      END
