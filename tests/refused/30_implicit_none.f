C with IMPLICIT NONE each name has to be declared
      IMPLICIT NONE
      I=1
      END
