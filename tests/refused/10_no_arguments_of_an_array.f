C an array has subscripts, also where its DIMENSION comes later
      I=NF()
      DIMENSION NF(3)
      END
