C FUNCTION with each type and without one, with and without dummies; references on
C the right side of assignments to variables and elements, and in a logical IF
      PROGRAM P
      INTEGER A(3),F
      LOGICAL L,IS
      I=NEXT(3)
      A(2)=NEXT(I+1)
      L=IS(A,2)
      J=F()
      IF (L) K=NEXT(J)
      IF(L)A(1)=F()
      I = NEXT ( I )
10    I=NEXT(4)
      CALL S(I)
      PRINT *,I,J,K,A(2),L
      END
      FUNCTION NEXT(K)
      NEXT=K+1
      END
      LOGICAL FUNCTION IS(A,N)
      INTEGER A(*)
      IS=A(N).GT.3
      IF (N.EQ.1) RETURN
      A(N)=0
      END
      INTEGER FUNCTION F()
      F=7
      RETURN
      END
      SUBROUTINE S(I)
      I=NEXT(I)
      END
