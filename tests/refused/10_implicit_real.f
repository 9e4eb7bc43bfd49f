C IMPLICIT gives no name the type REAL
      IMPLICIT REAL(A-H)
      END
