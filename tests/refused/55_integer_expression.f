C an INTEGER expression for a LOGICAL, as second argument
      CALL S(2,MAX(I,J))
      END
      SUBROUTINE S(I,L)
      LOGICAL L
      END
