C a reference of a subroutine
      I=NS(1)
      END
      SUBROUTINE NS(K)
      END
