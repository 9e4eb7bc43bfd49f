C comments may hold any byte, as this one, µ, a character constant may
C not
C µ
      PRINT *,'µ'
      END
