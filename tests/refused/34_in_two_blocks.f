C a name in two COMMON blocks
      COMMON /B/ I
      COMMON J,I
      END
