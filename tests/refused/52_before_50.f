C two modules of one name come before no main program
      SUBROUTINE S
      END
      SUBROUTINE S
      END
