C a function that refers to itself through another, in a logical IF
      I=NF(1)
      END
      FUNCTION NF(K)
      IF (K.EQ.1) NF=NG(K)
      END
      FUNCTION NG(K)
      NG=NF(K)
      END
