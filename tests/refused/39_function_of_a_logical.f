C IABS of a LOGICAL
      I=IABS(.TRUE.)
      END
