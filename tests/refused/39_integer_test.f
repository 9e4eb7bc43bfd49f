C an INTEGER as a test
      IF (I) J=1
      END
