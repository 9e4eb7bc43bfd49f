C a comment as last line, without a line end
      END
C last