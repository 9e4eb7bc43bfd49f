C a FUNCTION in a logical IF
      IF (I.EQ.1) FUNCTION NF(K)
      END
