C a name twice in one COMMON block
      COMMON I,I
      END
