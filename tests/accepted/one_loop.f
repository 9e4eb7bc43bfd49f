C a DO: its transformer, what holds in its body, and the index after it
      PROGRAM P
      I=1
      DO 10 K=1,2
10    CONTINUE
      END
