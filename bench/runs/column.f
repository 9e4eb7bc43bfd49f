C a column of a matrix as a vector
      PROGRAM P
      INTEGER M(2,3)
      CALL S(M(1,2))
      PRINT *,M(1,2),M(2,2)
      END
      SUBROUTINE S(V)
      INTEGER V(2)
      V(1)=4
      V(2)=V(1)+1
      END
