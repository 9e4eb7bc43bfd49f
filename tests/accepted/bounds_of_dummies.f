C bounds: bounds of dummy arrays that are fixed, changed, unknown or constant
      INTEGER X(20),Y(5,4)
      COMMON /SIZE/ M
      DATA X/20*0/,Y/20*0/
      M=20
      N=20
      CALL FIXED(X,20)
      CALL CHANGED(X,N)
      CALL UNKNOWN(X,20)
      CALL BLOCK(X)
      CALL LOWER(X,0,19)
      CALL TABLE(Y,5)
      CALL HANDED(X,20)
      CALL SET(X,20)
      END
      SUBROUTINE FIXED(A,N)
      INTEGER A(N)
      DO I=1,N
      A(I)=I
      A(I+1)=I
      A(N+1-I)=I
      END DO
      A(1)=0
      IF (N.GE.1) A(1)=0
      END
      SUBROUTINE CHANGED(A,N)
      INTEGER A(N)
      DO I=1,N
      A(I)=I
      END DO
      N=19
      END
      SUBROUTINE UNKNOWN(A,N)
      INTEGER A(*)
      DO I=1,N
      A(I)=I
      END DO
      A(1)=2
      A(0)=2
      END
      SUBROUTINE BLOCK(A)
      COMMON /SIZE/ M
      INTEGER A(M)
      DO I=1,M
      A(I)=I
      END DO
      END
      SUBROUTINE LOWER(A,L,K)
      INTEGER A(L:K)
      DO I=L,K
      A(I)=I
      A(I-L)=I
      END DO
      END
      SUBROUTINE TABLE(A,N)
      INTEGER A(N,*),B(4)
      PARAMETER (NP=4)
      INTEGER C(NP,NP+1)
      DO I=1,N
      A(I,1)=I
      END DO
      DO I=1,NP
      C(I,I)=I
      C(I,I+1)=I
      C(I+1,I)=I
      B(NP)=C(NP,NP)
      END DO
      END
      SUBROUTINE HANDED(A,N)
      INTEGER A(N)
      CALL FIXED(A,N)
      DO I=1,N
      A(I)=I
      END DO
      END
      SUBROUTINE SET(A,N)
      INTEGER A(N)
      CALL CHANGED(A,N)
      DO I=1,N
      A(I)=I
      END DO
      END
