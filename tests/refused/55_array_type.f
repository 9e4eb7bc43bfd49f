C an array of LOGICALs for one of INTEGERs
      LOGICAL L(2)
      CALL S(L)
      END
      SUBROUTINE S(J)
      INTEGER J(2)
      END
