C a subroutine that nobody calls is never entered
      I=1
      END
      SUBROUTINE S(K)
      K=1
      END
