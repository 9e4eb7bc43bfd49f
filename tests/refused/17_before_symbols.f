C structure comes before symbols
      X=1
      ELSE
      END
