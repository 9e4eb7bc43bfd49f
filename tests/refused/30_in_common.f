C such a name in COMMON
      COMMON X
      END
