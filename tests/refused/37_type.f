C DATA with a LOGICAL for an INTEGER
      DATA I/.TRUE./
      END
