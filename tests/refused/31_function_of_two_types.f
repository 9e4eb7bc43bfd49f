C a FUNCTION with one type, and a type statement with another
      I=NF(1)
      END
      INTEGER FUNCTION NF(K)
      LOGICAL NF
      END
