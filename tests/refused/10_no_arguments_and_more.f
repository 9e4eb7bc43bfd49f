C a reference without arguments is the whole right side alone
      I=NF()+1
      END
      FUNCTION NF()
      NF=1
      END
