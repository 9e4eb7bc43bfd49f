C a character constant that is not closed
      PRINT *,'A
      END
