C PRINT without a format
      PRINT
      END
