C more jumps than the list may make
      PROGRAM P
      I=0
10    I=I+1
      GO TO 10
      END
