C DATA with more values than names
      DATA I/1,2/
      END
