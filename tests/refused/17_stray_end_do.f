C END DO without a DO
      END DO
      END
