C a reference without arguments in a test
      IF (NF().EQ.1) I=2
      END
      FUNCTION NF()
      NF=1
      END
