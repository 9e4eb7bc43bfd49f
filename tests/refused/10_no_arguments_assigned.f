C an assignment to a reference without arguments
      NF()=1
      END
      FUNCTION NF()
      NF=1
      END
