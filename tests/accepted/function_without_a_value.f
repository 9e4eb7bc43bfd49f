C the result of a function that gives it no value is 0, or .FALSE.
      LOGICAL LF,L
      I=NF(3)
      L=LF(3)
      PRINT *,I,L
      END
      FUNCTION NF(K)
      IF (K.EQ.1) NF=4
      END
      LOGICAL FUNCTION LF(K)
      END
