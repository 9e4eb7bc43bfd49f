C DO with and without a label, with steps of each sign, with bounds that
C are expressions, and how the index ends
      INTEGER A(5)
      DO I=1,10
      K=I
      END DO
      PRINT *,I
      DO 10 J=10,1,-3
10    K=J
      PRINT *,J
      DO 20, M=N,2*N,2
20    CONTINUE
      DO I=A(1),A(2)
      END DO
      DO I=1,N,K
      END DO
      DO I=5,1
      K=7
      ENDDO
      PRINT *,K
      END
