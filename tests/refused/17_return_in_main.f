C RETURN in a main program
      IF (I.EQ.1) RETURN
      END
