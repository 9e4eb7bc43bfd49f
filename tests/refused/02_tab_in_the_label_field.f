C a tab in the label field of a continuation line, though a constant
C goes on in it
      PRINT *,'x
   	 &y'
      END
