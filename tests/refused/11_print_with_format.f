C PRINT with the label of a FORMAT
      PRINT 7,I
      END
