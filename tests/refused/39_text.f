C a character constant assigned to an INTEGER
      I='a'
      END
