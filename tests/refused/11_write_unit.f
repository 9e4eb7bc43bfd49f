C WRITE on a unit that is neither * nor 6
      WRITE(7,*) I
      END
