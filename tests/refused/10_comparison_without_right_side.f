C a comparison without its right side
      IF (I.EQ.) I=1
      END
