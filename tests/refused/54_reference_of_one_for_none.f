C a reference with an argument of a function without one
      I=NF(1)
      END
      FUNCTION NF()
      NF=1
      END
