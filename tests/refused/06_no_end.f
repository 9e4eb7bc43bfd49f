C the last module has no END; the line is that of the last statement
      PROGRAM P
      I=1
      PRINT *,I
