C a COMMON block without names
      COMMON /B/
      END
