C two main programs without a name
      END
      END
