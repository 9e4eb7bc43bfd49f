C a test alone
      IF (I.EQ.1)
      END
