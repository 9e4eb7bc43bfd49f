C a FUNCTION has no RESULT
      END
      FUNCTION NF(K) RESULT(J)
      J=1
      END
