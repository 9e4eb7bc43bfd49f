C one array for two dummy arguments
      INTEGER A(10)
      CALL S(A,A)
      END
      SUBROUTINE S(X,Y)
      INTEGER X(10),Y(10)
      DO I=1,10
      X(I)=Y(I)+1
      END DO
      END
