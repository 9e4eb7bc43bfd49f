C PRINT with a name for a format
      PRINT F
      END
