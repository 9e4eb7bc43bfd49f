C END with more behind it, in a last line without a line end
      I=1
      END1