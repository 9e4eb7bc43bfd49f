C a dummy is a name
      END
      FUNCTION NF(1)
      NF=1
      END
