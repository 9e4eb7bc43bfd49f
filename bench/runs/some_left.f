C input is left
      PROGRAM P
      INTEGER A(2)
      LOGICAL L
      READ *,I,A(I),L
      PRINT *,A(2),L
      END
