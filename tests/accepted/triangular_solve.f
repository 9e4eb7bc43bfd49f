C     A triangular system, column by column.
      INTEGER A(12,12),X(12)
      DO 20 I=1,12
      X(I)=I*I
      DO 10 J=1,12
      A(I,J)=MOD(I*J,5)
   10 CONTINUE
   20 CONTINUE
      DO 40 J=1,12
      DO 30 I=J+1,12
      X(I)=X(I)-A(I,J)*X(J)
   30 CONTINUE
   40 CONTINUE
      PRINT *,X(12)
      END
