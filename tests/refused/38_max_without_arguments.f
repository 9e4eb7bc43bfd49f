C MAX without arguments
      I=MAX
      END
