C MAX, MAX0, MIN and MIN0 of two operands, of which one is the variable; MAX0 is an array in S, so there it is no function
      INTEGER A(10)
      DATA A/10*3/
      K=0
      L=9
      DO I=1,10
      J=2*A(I)
      K=MAX(K,J)
      END DO
      DO I=1,10
      IF (A(I).LT.L) THEN
      L=MIN0(A(I),L)
      ELSE
      L=MIN(L,I)
      END IF
      END DO
C three operands, both operands with K, and K inside one
      DO I=1,10
      K=MAX(K,A(I),I)
      END DO
      DO I=1,10
      K=MAX(K,K+1)
      END DO
      DO I=1,10
      K=MAX(K+1,A(I))
      END DO
C the greatest and the least of one variable
      DO I=1,10
      K=MAX(K,A(I))
      K=MIN(K,100)
      END DO
      PRINT *,K,L
      CALL S(A)
      END
      SUBROUTINE S(A)
      INTEGER A(10),MAX0(10,10)
      K=1
      L=1
      DO I=1,10
      K=MAX0(K,A(I))
      END DO
      DO I=1,10
      L=MAX(L,A(I))
      END DO
      PRINT *,K,L
      END
