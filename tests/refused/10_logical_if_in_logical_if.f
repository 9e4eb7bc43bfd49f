C a logical IF in a logical IF
      LOGICAL L
      IF (L) IF (L) I=1
      END
