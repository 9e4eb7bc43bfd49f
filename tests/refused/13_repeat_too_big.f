C the repeat count of DATA is a number
      DATA I/2147483648*0/
      END
