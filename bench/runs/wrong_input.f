C input of another type: fault 4
      PROGRAM P
      LOGICAL L
      READ *,I
      PRINT *,I
      READ *,L
      END
