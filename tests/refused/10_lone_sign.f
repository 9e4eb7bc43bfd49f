C a sign alone
      I=+
      END
