C a LOGICAL expression for an INTEGER
      CALL S(I.EQ.1)
      END
      SUBROUTINE S(I)
      END
