C such a name as a dummy argument
      SUBROUTINE S(X)
      END
      I=1
      END
