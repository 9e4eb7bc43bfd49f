C labels of five digits, with zeros before them, blanks in them, and one
C that column 6 cuts off
1 2 30I=1
0005 0J=1
    10K=1
99999 CONTINUE
  1 0 PRINT *,I,J,K
      GO TO 5
      END
