C variables of which no copies are made: in COMMON, in EQUIVALENCE, saved, with a first value, a dummy; the last one is local
      PROGRAM P
      INTEGER A(10)
      COMMON /C/ K
      EQUIVALENCE (L,LL)
      SAVE M
      DATA A/10*3/,N/0/
      K=0
      L=0
      M=0
      J=0
      DO I=1,10
      K=K+A(I)
      END DO
      DO I=1,10
      L=L+A(I)
      END DO
      DO I=1,10
      M=M+A(I)
      END DO
      DO I=1,10
      N=N+A(I)
      END DO
      DO I=1,10
      J=J+A(I)
      END DO
      PRINT *,J,K,L,M,N
      CALL S(A,J)
      END
      SUBROUTINE S(A,J)
      INTEGER A(10)
      DO I=1,10
      J=J+A(I)
      END DO
      DO I=1,10
      A(1)=A(1)+I
      END DO
      END
