C such a name in DATA
      DATA A/1/
      END
