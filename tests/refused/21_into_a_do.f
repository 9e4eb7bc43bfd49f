C a GO TO into a DO
      GO TO 10
      DO I=1,2
10    I=1
      END DO
      END
