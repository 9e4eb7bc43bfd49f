C DATA with a name for a value
      DATA I/N/
      END
