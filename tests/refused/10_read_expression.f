C READ into an expression
      READ(5,*) I+1
      END
