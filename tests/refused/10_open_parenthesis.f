C a parenthesis that is not closed
      I=(1
      END
