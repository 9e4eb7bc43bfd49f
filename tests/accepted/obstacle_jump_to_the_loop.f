C SERIAL Jump: the label of the DO is that of a GO TO
      INTEGER A(9)
      N=0
10    DO I=1,9
      A(I)=N
      END DO
      N=N+1
      IF (N.LT.3) GO TO 10
      END
