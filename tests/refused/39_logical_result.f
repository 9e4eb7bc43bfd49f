C the result of a LOGICAL function to an INTEGER
      LOGICAL LF
      I=LF(1)
      END
      LOGICAL FUNCTION LF(K)
      LF=K.EQ.1
      END
