C an array in COMMON has subscripts
      COMMON NF(3)
      I=NF()
      END
