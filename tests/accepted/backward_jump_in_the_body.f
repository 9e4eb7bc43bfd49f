C a GO TO back within the body of a DO: its statements are one list with
C jumps
      INTEGER A(10)
      DO I=1,10
      K=0
5     K=K+1
      IF (K.LT.I) GO TO 5
      A(I)=K
      END DO
      END
