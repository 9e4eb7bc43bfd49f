C DATA of one unit twice, by EQUIVALENCE
      EQUIVALENCE (I,J)
      DATA I/1/ J/1/
      END
