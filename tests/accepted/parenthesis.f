C a constant in parentheses is the same number
      PROGRAM P
      I=(1)
      PRINT *,I
      END
