C a reference without arguments in the test of a DO WHILE
      DO WHILE (NF().EQ.1)
      END DO
      END
      FUNCTION NF()
      NF=1
      END
