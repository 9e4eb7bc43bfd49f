C DATA of one name twice
      DATA I/1/,I/2/
      END
