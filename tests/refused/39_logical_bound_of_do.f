C a LOGICAL as the last value of a DO
      DO I=1,.TRUE.
      END DO
      END
