C the first CALL of the text that does not fit
      CALL S(.TRUE.)
      CALL S
      CALL T
      END
      SUBROUTINE S(I)
      END
