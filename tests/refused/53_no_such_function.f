C a reference of what is no module
      J=I(2)
      END
