C END IF is no END
      I=1
      ENDIF
