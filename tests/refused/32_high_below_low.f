C a high bound below the low one
      INTEGER A(3:2)
      END
