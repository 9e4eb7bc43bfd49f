C a GO TO to the label that a DO WHILE has inside
      DO WHILE (I.LT.9)
      GO TO 100001
      END DO
      END
