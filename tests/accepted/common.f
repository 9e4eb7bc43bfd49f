C COMMON: named blocks, the blank block with and without its slashes,
C bounds in COMMON, commas between blocks
      IMPLICIT INTEGER(A-Z)
      COMMON /B/ X,Y(3) /C/ Z
      COMMON A,G//H/D/E
      COMMON //F,/B/W,//R
      X=Z
      A=F+W
      END
