C a FUNCTION with a type, and a type statement of its name
      I=NF(1)
      END
      INTEGER FUNCTION NF(K)
      INTEGER NF
      NF=K
      END
