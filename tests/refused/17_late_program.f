C PROGRAM after the first statement
      I=1
      PROGRAM P
      END
