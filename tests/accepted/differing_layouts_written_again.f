C the text that is written of one block in two layouts, once more
      PROGRAM P
      COMMON /B/ N,M
C> P {}
      N = 1
C> P {}
C> WRITE /B/ {PHI1==1} EXACT
C> OUT /B/ {PHI1==1} MAY
      CALL S
C> P {}
      PRINT *,N
      END
C> P {}
C> WRITE K {PHI1==1} EXACT
C> OUT K {PHI1==1} MAY
      SUBROUTINE S
      COMMON /B/ K(2)
C> P {}
      K(1) = 5
      END
