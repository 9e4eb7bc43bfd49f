C values that are known, one after the other
      PROGRAM P
      I=1
      I=I+1
      PRINT *,I
      END
