C an array element as actual: the dummy reaches to the end of the array
      PROGRAM P
      INTEGER A(4)
      DO I=1,4
      A(I)=I
      END DO
      CALL S(A(3))
      PRINT *,A(3),A(4)
      END
      SUBROUTINE S(V)
      INTEGER V(0:*)
      V(0)=V(1)
      V(1)=9
      END
