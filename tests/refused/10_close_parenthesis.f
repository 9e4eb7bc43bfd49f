C a parenthesis that was not opened
      I=J)
      END
