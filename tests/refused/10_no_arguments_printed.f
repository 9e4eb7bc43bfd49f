C a reference without arguments in a PRINT
      PRINT *,NF()
      END
      FUNCTION NF()
      NF=1
      END
