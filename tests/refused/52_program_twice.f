C one main program twice
      PROGRAM P
      END
      PROGRAM P
      END
