C two subroutines of one name
      PROGRAM P
      END
      SUBROUTINE S
      END
      SUBROUTINE S
      END
