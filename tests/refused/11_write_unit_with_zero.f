C the unit of a WRITE is written 6, not 06
      WRITE(06,*) I
      END
