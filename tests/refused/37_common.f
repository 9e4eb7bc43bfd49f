C DATA of a name in COMMON
      COMMON I
      DATA I/1/
      END
