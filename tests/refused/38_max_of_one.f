C MAX of one argument
      I=MAX(1)
      END
