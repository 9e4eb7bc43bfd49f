C a real constant in DATA
      DATA I/1.5/
      END
