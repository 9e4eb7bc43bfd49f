C INTEGER and LOGICAL with bounds of each form, and types by first
C letters
      SUBROUTINE T(D,E,N)
      IMPLICIT INTEGER (A-H , O-Z),LOGICAL(L)
      INTEGER D(N,2*N+1,*),E(-1:*),A(10),B(0:5,-1:1),C
      LOGICAL LL(3),M
      DIMENSION Q(3,0:4)
      A(1)=C+X
      M=LA
      END
      END
