C a reference, a FUNCTION and a DO WHILE that take more than one line
      INTEGER A(9)
      A(1)=NAME_OF_A_LONG_FUNCTION(A(1)+A(2)+A(3)+A(4)+A(5)+A(6)+A(7)+A(
     &8),1,2,3,A)
      DO WHILE (A(1).LT.10.AND.A(2).LT.A(3).AND.A(3).LT.A(4).AND.A(4).LT
     &.A(5).AND.A(5).LT.A(6))
      A(1)=A(1)+1
      END DO
      END
      INTEGER FUNCTION NAME_OF_A_LONG_FUNCTION(NUMBER_OF_THE_FIRST_POINT
     &,NUMBER_OF_THE_SECOND_POINT,NUMBER_OF_THE_THIRD_POINT,N,K)
      INTEGER K(9)
      NAME_OF_A_LONG_FUNCTION=K(N)
      END
