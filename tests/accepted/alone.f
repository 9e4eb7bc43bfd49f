C END alone
      END
