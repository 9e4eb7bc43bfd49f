C a type that is declared twice in one statement
      PROGRAM P
      LOGICAL I,I
      END
