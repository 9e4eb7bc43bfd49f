C a continuation line with only comments before it
C

     &I=1
      END
