C a tab in a continuation line, after the end of a constant
      PRINT *,'x'
     &	,1
      END
