C a FUNCTION without a name
      END
      FUNCTION (K)
      END
