C a reference without arguments in parentheses
      I=(NF())
      END
      FUNCTION NF()
      NF=1
      END
