C END IF in a logical IF
      IF (I.EQ.1) ENDIF
      END
