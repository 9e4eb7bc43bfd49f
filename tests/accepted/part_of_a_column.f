C a subroutine gets an array from one of its elements on
      INTEGER A(4,4)
      CALL S(A(1,2))
      END
      SUBROUTINE S(X)
      INTEGER X(3)
      DO I=1,3
      X(I)=0
      END DO
      END
