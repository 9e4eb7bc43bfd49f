C a DO whose label never comes
      I=1
      DO 10 I=1,2
      END
