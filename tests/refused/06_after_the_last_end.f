C a statement after the last END, and comments after it
      END
      I=1
C last

