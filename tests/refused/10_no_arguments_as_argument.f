C a reference without arguments as an argument
      CALL S(NF())
      END
      FUNCTION NF()
      NF=1
      END
