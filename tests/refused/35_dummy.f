C EQUIVALENCE of a dummy argument
      SUBROUTINE S(I)
      EQUIVALENCE (I,J)
      END
      I=1
      END
