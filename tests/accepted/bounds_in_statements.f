C bounds: the references of each statement, in the order in which they are evaluated
      INTEGER A(9),K(9),MAX(3)
      LOGICAL P(9)
      DATA A/9*1/,K/9*1/,P/9*.TRUE./
      N=3
      A(K(N))=K(A(N+7))+A(1)*A(-N)
      DO I=K(1),A(10),A(K(2))
      A(I)=-(A(I))
      END DO
      IF (P(N)) A(N)=A(N+1)
      IF (P(K(N))) CALL S(A(N),K,N,A(N)+A(0))
      IF (P(1)) THEN
      A(1)=1
      ELSE IF (P(2).AND.A(N).EQ.K(N+9)) THEN
      A(2)=1
      ELSE IF (P(10)) THEN
      A(10)=2
      ELSE
      A(3)=1
      END IF
      DO WHILE (A(N).LT.9)
      A(N)=A(N)+1
      END DO
      DO 10 WHILE (A(N+9).LT.9)
   10 N=N+1
      N=4
      A(N)=NF(A(N),K(10))
      IF (P(N)) A(N+9)=NF(A(N),K(N))
      PRINT *,'A(99),B',A(N),P(N),ABS(A(N)),MAX(N),MIN(A(2),K(0))
      STOP
      END
      SUBROUTINE S(J,L,N,M)
      INTEGER L(N)
      J=L(N)+M
      RETURN
      END
      FUNCTION NF(I,J)
      NF=I+J
      END
