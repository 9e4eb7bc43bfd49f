C the name of a FUNCTION in COMMON
      I=NF(1)
      END
      FUNCTION NF(K)
      COMMON NF
      END
