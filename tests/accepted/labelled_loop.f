C DO10I=1,5 is a DO and DO10I=1 an assignment
      IMPLICIT INTEGER(A-Z)
      DO10I=1,5
10    CONTINUE
      DO10I=1
      END
