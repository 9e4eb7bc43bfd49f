C GO TO with a number that is none
      GO TO 1.5
      END
