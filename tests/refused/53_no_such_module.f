C a CALL of what is not there
      I=1
      CALL S(I)
      END
