C a reference without arguments as the bound of a DO
      DO I=1,NF()
      END DO
      END
      FUNCTION NF()
      NF=1
      END
