C two main programs come before a CALL of what is not there
      CALL T
      END
      PROGRAM Q
      END
