C DATA with a comma at its end
      DATA I/1/,
      END
