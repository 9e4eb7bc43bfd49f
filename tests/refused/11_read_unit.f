C READ from a unit that is neither * nor 5
      READ(6,*) I
      END
