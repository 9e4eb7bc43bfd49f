C the text that is written of assignments, once more
      PROGRAM P
C> P {}
      I = 1
C> P {I==1}
      I = I+1
C> P {I==2}
      PRINT *,I
      END
