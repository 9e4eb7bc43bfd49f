C a * that is not the last bound
      SUBROUTINE S(I)
      INTEGER I(*,2)
      END
      I=1
      END
