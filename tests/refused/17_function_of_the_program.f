C the name of a reference is also the name of the program
      PROGRAM NF
      I=NF(1)
      END
      FUNCTION NF(K)
      NF=K
      END
