C a reference without arguments as a subscript
      INTEGER A(3)
      I=A(NF())
      END
      FUNCTION NF()
      NF=1
      END
