C READ with the label of a FORMAT
      READ 5,I
      END
