C a DO with one value is an assignment, and its END DO strays: that is
C 17, but 10 comes first
      DO I=1
      I=(
      END DO
      END
