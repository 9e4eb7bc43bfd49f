C comments before, in and after modules; those after an END belong to
C the next module
C of the program
      PROGRAM P
      CALL S(I)
      END
C next
      SUBROUTINE S(J)
C of J
      INTEGER J
      RETURN
      END
C last
