C a reference of a subroutine whose last argument it would be
      I=NS(1)
      END
      SUBROUTINE NS(K,L)
      L=K
      END
