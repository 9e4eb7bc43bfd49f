C a main program with a name, and one without
      PROGRAM P
      END
      END
