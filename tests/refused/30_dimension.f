C DIMENSION gives a name no type
      DIMENSION B(3)
      I=B(1)
      END
