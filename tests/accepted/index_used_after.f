C the index after its DO: one step past the last
      DO I=1,5
      CONTINUE
      END DO
      PRINT *,I
      END
