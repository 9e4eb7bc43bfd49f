C the smallest program with a statement, without a PROGRAM line
      I=1
      END
