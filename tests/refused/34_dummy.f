C a dummy argument in COMMON
      SUBROUTINE S(I)
      COMMON I
      END
      I=1
      END
