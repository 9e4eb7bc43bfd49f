C MOD of one argument
      I=MOD(1)
      END
