C DATA with fewer values than names
      DATA I,J/1/
      END
