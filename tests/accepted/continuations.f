C continuation lines, with comments and blank lines between, one with
C nothing in it, an END that goes on, and columns that mean nothing
      I=
C between

     &1
     1+2
     &
C inside
     &+3                                                                +9
      IF (I.EQ.6) THEN
      I=2
      END
     &IF
      END
