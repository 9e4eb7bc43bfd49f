C a DO variable is written while the DO is active: fault 5
      PROGRAM P
      DO I=1,3
      CALL S(I)
      END DO
      END
      SUBROUTINE S(N)
      PRINT *,N
      N=2
      END
