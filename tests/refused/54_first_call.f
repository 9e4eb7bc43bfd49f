C the first CALL of the text that does not fit
      CALL S
      CALL T
      CALL S(.TRUE.)
      END
      SUBROUTINE S(I)
      END
