C a main program without a title: its claims stand before its first
C statement
      SAVE
      CONTINUE
      END
