C an array of eight dimensions
      INTEGER A(1,1,1,1,1,1,1,1)
      END
