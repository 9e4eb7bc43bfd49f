C a DO WHILE without a test
      DO WHILE ()
      END DO
      END
