C bounds: rows with numbers at and past the limit of rows
      INTEGER B(3),D(5)
      CALL S(B,D,1,1)
      END
      SUBROUTINE S(A,C,N,K)
      INTEGER A(N*2147483647*2147483647:9),C(2147483643:2147483647)
      A(K-N*2147483647*2147483647)=1
      A(N*2147483647*2147483647)=2
      A(N*2147483647*2147483647+K)=3
      A(9)=4
      C(2147483647)=1
      C(2147483642)=1
      I=2147483646
      C(I)=1
      C(I+I)=1
      C(I+1)=1
      C(I+2)=1
      DO J=2147483643,2147483647
      C(J)=1
      C(J-1)=1
      C(2147483647*2-J)=1
      C(2147483645*2-J)=1
      END DO
      END
