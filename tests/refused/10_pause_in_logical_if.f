C a keyword outside the profile in a logical IF
      IF (I.EQ.1) PAUSE
      END
