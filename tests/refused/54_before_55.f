C the number of arguments comes before their types
      CALL S(.TRUE.)
      END
      SUBROUTINE S(I,J)
      END
