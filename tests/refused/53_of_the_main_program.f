C a CALL of the main program
      PROGRAM P
      CALL P
      END
