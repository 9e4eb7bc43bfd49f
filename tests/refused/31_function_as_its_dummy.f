C the name of a FUNCTION among its dummies
      I=NF(1)
      END
      FUNCTION NF(NF)
      END
