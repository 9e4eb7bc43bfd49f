C STOP with six digits
      STOP 123456
      END
