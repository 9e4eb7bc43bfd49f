C a real constant
      I=1.5
      END
