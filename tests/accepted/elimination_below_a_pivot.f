C     The elimination of a matrix, without a change of rows.
      SUBROUTINE ELIM(A,N)
      INTEGER A(20,20)
      DO 30 K=1,N-1
      DO 10 I=K+1,N
      A(I,K)=A(I,K)/A(K,K)
   10 CONTINUE
      DO 30 J=K+1,N
      DO 20 I=K+1,N
      A(I,J)=A(I,J)-A(I,K)*A(K,J)
   20 CONTINUE
   30 CONTINUE
      END
      INTEGER A(20,20)
      DO 50 I=1,20
      DO 40 J=1,20
      A(I,J)=I+J*J
   40 CONTINUE
   50 CONTINUE
      CALL ELIM(A,20)
      PRINT *,A(20,20)
      END
