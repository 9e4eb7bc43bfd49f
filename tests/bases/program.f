C All that results of each stored kind may have
      PROGRAM P
      INTEGER A(10),B(10,10),T(3)
      LOGICAL L
      COMMON /C/ N,M(5)
      COMMON K
      DATA T/3*1/
      READ *,N,J
      IF (N.GT.10) N=10
      IF (N.LT.1) STOP
      L=J.GT.2*N
      DO 20 I=1,N
      DO 10 J=I,N
      B(I,J)=I-J
   10 CONTINUE
      K1=2*I
      A(I)=K1
   20 CONTINUE
      DO 30 I=2,N
      A(I)=A(I-1)+B(I,1)
   30 CONTINUE
      CALL S(A,N)
      IF (L) THEN
      CALL W(B(1,2),T(2))
      ELSE IF (N.EQ.3) THEN
      M(N)=K
      ELSE
      K=K+1
      END IF
      CALL V(M,A)
      DO 40 I=5,1
      K=I
   40 CONTINUE
      PRINT *,A(1),B(N,N),M(2)
      END
      SUBROUTINE S(X,NX)
      INTEGER X(NX)
      COMMON /C/ L,I(2),J(3)
      COMMON K
      SAVE MX
      DO 10 J1=1,NX,K
      X(J1)=X(J1)+MX
   10 CONTINUE
      DO 20 J1=1,2
      I(J1)=J1
      K=X(J1)
      J(J1+1)=K
   20 CONTINUE
      MX=MX+1
      DO 30 J1=1,9
      PRINT *,J1
   30 CONTINUE
      DO 40 J1=1,NX
      M=J1*J1
      X(J1)=M
   40 CONTINUE
      L=M+J1
      RETURN
      END
      SUBROUTINE V(M,A)
      INTEGER M(5),A(9)
      DO 10 I=1,9,2
      IF (A(I).EQ.0) GO TO 20
      M(MOD(I,5)+1)=I*I
   10 CONTINUE
   20 M(2)=A(2)
      DO 30 I=1,5
      K=I*I
      M(I)=K+A(I)
   30 CONTINUE
      M(1)=K
      END
      SUBROUTINE W(Y,K)
      INTEGER Y(9,*),Z(3),Q
      COMMON /D/ KD,ID(4)
      EQUIVALENCE (Z(1),Q)
      DATA LW/7/
      KD=2147483647*K
      LK=2147483647*KD
      IF (LK.LT.0) THEN
      LW=2147483647*LK
      KD=KD-1
      ELSE
      KD=KD+2
      END IF
      DO 10 I=1,3
      Z(I)=Y(I,LW)
      ID(I+1)=Z(I)+Q
   10 CONTINUE
      DO 20 I=4,2,-1
      Y(I,1)=ID(I-1)
   20 CONTINUE
      DO 30 I=1,3
      Q=I
      Y(Q,2)=Q
   30 CONTINUE
      Y(K,3)=LW
      END
