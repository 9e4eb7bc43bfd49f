C WRITE with a comma before its items
      WRITE(*,*),I
      END
