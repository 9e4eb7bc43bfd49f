C a name that is REAL by its first letter
      PROGRAM P
      X=1
      END
