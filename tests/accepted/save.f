C SAVE of names and blocks; SAVE alone is in other files
      INTEGER A,C
      COMMON /B/ I
      SAVE A,/B/,C
      A=C
      END
