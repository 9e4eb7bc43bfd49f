C a FUNCTION has parentheses, also without dummies
      END
      FUNCTION NF
      NF=1
      END
