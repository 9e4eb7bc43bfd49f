C .EQ. of LOGICALs
      LOGICAL L
      IF (L.EQ.L) I=1
      END
