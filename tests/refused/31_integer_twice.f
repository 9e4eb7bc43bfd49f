C a type that is declared twice
      INTEGER A
      INTEGER A
      END
