C a LOGICAL assigned to an INTEGER
      I=.TRUE.
      END
