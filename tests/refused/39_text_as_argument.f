C a character constant as an argument
      CALL S('text')
      END
