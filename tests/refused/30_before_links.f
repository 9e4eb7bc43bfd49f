C the symbols of all modules come before their links, here two modules
C of one name
      PROGRAM P
      CALL S
      END
      PROGRAM P
      X=1
      END
