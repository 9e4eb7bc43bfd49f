C a GO TO to a label that is missing
      PROGRAM P
      GO TO 10
      END
