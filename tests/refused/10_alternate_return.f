C a dummy argument * for an alternate return
      SUBROUTINE S(*)
      END
