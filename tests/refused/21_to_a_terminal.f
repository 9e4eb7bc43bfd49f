C a GO TO to the last statement of a DO, from without
      DO I=1,2
10    CONTINUE
      END DO
      GO TO 10
      END
