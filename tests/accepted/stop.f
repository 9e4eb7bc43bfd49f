C STOP alone, with digits as they are written, and with a constant
      IF (I.EQ.1) STOP
      IF (I.EQ.2) STOP 12
      IF (I.EQ.3) STOP 007
      IF (I.EQ.4) STOP 'it''s'
      IF (I.EQ.5) STOP 99999
      STOP
      I=1
      END
