C such a name in PRINT
      PRINT *,X
      END
