C it is 53 with arguments, too
      PROGRAM P
      END
      SUBROUTINE S
      CALL P(1)
      END
